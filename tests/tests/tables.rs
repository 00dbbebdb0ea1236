//! Holds the tables of examples in docs/CODES.md and docs/SPECIFICATION.md to the unit: each
//! message has the tape, the names, the live cuts and the record that its row says, and each level
//! its words. So are the words of docs/LEVELS.md held to the levels that the unit speaks, and to the proved
//! definition. README.md and the header must have a row for each refusal.

use std::collections::BTreeSet;
use std::fs;

use govorun_tests::agreed::{book_add, join, names, speak_level, tape, tape_in};
use govorun_tests::codes::NAMES;
use govorun_tests::unit::DISPATCH;
use govorun_tests::{cp1251, spell, EDITIONS};

/// The text of a file of the repository.
fn file(path: &str) -> String {
    let path = format!("{}/../{path}", env!("CARGO_MANIFEST_DIR"));
    fs::read_to_string(&path).unwrap_or_else(|error| panic!("{path}: {error}"))
}

/// The rows below the line that begins with this head, to the table's end: their cells without the
/// backticks, with `\|` in a cell read as `|`.
fn rows(document: &str, head: &str) -> Vec<Vec<String>> {
    let text = file(&format!("docs/{document}"));
    let below = text.lines().skip_while(|line| !line.starts_with(head));
    let rows = below.skip(2).take_while(|line| line.starts_with('|'));
    rows.map(|line| line.replace("\\|", "\u{1}"))
        .map(|line| {
            let line = line
                .strip_prefix('|')
                .and_then(|line| line.strip_suffix('|'));
            let cells = line.expect("a row").split('|');
            cells
                .map(|cell| cell.trim().trim_matches('`').replace('\u{1}', "|"))
                .collect()
        })
        .collect()
}

fn codes() -> Vec<Vec<String>> {
    rows("CODES.md", "| code | sound |")
}

#[test]
fn every_code_has_a_row() {
    let rows = codes();
    assert_eq!(rows.len(), 58);
    for (index, name) in NAMES.iter().enumerate() {
        let row = &rows[index + 1];
        assert_eq!(row[0], (index + 1).to_string());
        assert_eq!(&row[1], name);
    }
}

#[test]
fn every_example_has_its_tape_and_its_code() {
    for row in codes().iter().filter(|row| !row[2].is_empty()) {
        let code: u8 = row[0].parse().expect("a code");
        let tape = tape(&cp1251(&row[2]), usize::MAX).expect("an accepted message");
        assert!(tape.contains(&code), "{row:?}");
        assert_eq!(spell(&tape), row[3]);
    }
}

/// The numbers of a cell, which may be empty.
fn numbers(cell: &str) -> Vec<usize> {
    let digits = cell.split([',', ' ']).filter(|part| !part.is_empty());
    digits.map(|part| part.parse().expect("a number")).collect()
}

#[test]
fn every_worked_word_has_its_tape_and_its_live_cuts() {
    let rows = rows("SPECIFICATION.md", "| message | cuts | tape | live |");
    assert_eq!(rows.len(), 25);
    for row in rows {
        let joined = join(&cp1251(&row[0]), &numbers(&row[1]), usize::MAX);
        let joined = joined.expect("an accepted message");
        assert_eq!(spell(&joined.tape), row[2], "{row:?}");
        assert_eq!(vec![joined.live], numbers(&row[3]), "{row:?}");
    }
}

#[test]
fn every_word_has_its_tapes_in_both_editions() {
    let rows = rows("SPECIFICATION.md", "| message | edition 1 | edition 2 |");
    assert_eq!(rows.len(), 9);
    for row in rows {
        let msg = cp1251(&row[0]);
        let [one, two] = EDITIONS.map(|edition| {
            let tape = tape_in(edition, &msg, usize::MAX);
            spell(&tape.expect("an accepted message"))
        });
        assert_eq!(one, row[1], "{row:?}");
        let same = row[2] == "the same";
        assert_eq!(&two, if same { &row[1] } else { &row[2] }, "{row:?}");
    }
}

/// Three examples stand in a row, a message and its names each, with an empty cell between.
#[test]
fn every_named_word_has_its_names() {
    let rows = rows("SPECIFICATION.md", "| message | names |");
    let examples: Vec<_> = rows.iter().flat_map(|row| row.chunks(3)).collect();
    assert_eq!(examples.len(), 9);
    for example in examples {
        let named = names(&cp1251(&example[0]), usize::MAX).expect("an accepted message");
        let named: Vec<usize> = named.into_iter().map(usize::from).collect();
        assert_eq!(named, numbers(&example[1]), "{example:?}");
    }
}

#[test]
fn every_worked_level_has_its_words() {
    let rows = rows("SPECIFICATION.md", "| level | words |");
    assert_eq!(rows.len(), 7);
    for row in rows {
        let level = row[0].parse().expect("a level");
        let words = speak_level(level, usize::MAX).expect("a level of the range");
        assert_eq!(words, cp1251(&row[1]), "{row:?}");
    }
}

#[test]
fn every_worked_record_is_what_is_added() {
    let rows = rows(
        "SPECIFICATION.md",
        "| message | number | set | record, hexadecimal |",
    );
    assert_eq!(rows.len(), 2);
    for row in rows {
        let byte = |digits| u8::from_str_radix(digits, 16).expect("two digits");
        let record: Vec<u8> = row[3].split(' ').map(byte).collect();
        let mut buffer = vec![0xAA; record.len()];
        let (phrase, set) = (row[1].parse().expect("a number"), byte(&row[2]));
        let added = book_add(DISPATCH, &mut buffer, 0, phrase, set, &cp1251(&row[0]));
        assert_eq!(added, Ok(record.len()), "{row:?}");
        assert_eq!(buffer, record, "{row:?}");
    }
}

/// The numbers that begin the rows of a list in a comment in C, two gaps behind them.
fn numbers_of_rows(comments: &str) -> BTreeSet<usize> {
    let rows = comments.lines().filter_map(|line| {
        let row = line.trim_start().strip_prefix('*')?.trim_start();
        row.split_once("  ")?.0.parse().ok()
    });
    rows.collect()
}

#[test]
fn every_refusal_has_a_row() {
    let rows = rows("../README.md", "| No. | what | place |");
    let listed: Vec<usize> = rows.iter().flat_map(|row| numbers(&row[0])).collect();
    assert_eq!(listed, (1..=17).collect::<Vec<_>>());
    let header = numbers_of_rows(&file("include/govorun.h"));
    assert_eq!(header, (1..=17).collect());
}

/// A word, with the number that says it, if one does.
type Row = (Option<i32>, String);

/// The tables of docs/LEVELS.md.
struct Words {
    numbers: Vec<Row>,
    counts: Vec<Row>,
    thousands: Vec<Vec<String>>,
    others: Vec<Vec<String>>,
}

impl Words {
    fn read() -> Self {
        let table = |head| rows("LEVELS.md", head);
        let numbered = |head| table(head).into_iter().map(numbered).collect();
        Words {
            numbers: numbered("| number | word |"),
            counts: numbered("| count of thousands | word |"),
            thousands: table("| after | thousand |"),
            others: table("| level | word |"),
        }
    }

    /// All rows in order. Those of the last two tables have a condition in the place of a number.
    fn all(&self) -> Vec<Row> {
        let others = self.thousands.iter().chain(&self.others);
        let others = others.map(|row| (None, row[1].clone()));
        let numbered = self.numbers.iter().chain(&self.counts).cloned();
        numbered.chain(others).collect()
    }

    /// The words of a level: the sign, the thousands, and then the largest number of the table that
    /// is not above what is left, as long as something is.
    fn speak(&self, level: i32) -> String {
        let [zero, below_zero] = [0, 1].map(|row: usize| &self.others[row][1][..]);
        let mut words = Vec::new();
        let mut left = level.abs();
        if left >= 1_000 {
            words.extend(self.speak_thousands(left / 1_000));
            left %= 1_000;
        }
        while left > 0 {
            let fits = |row: &&Row| row.0 <= Some(left);
            let (number, word) = self.numbers.iter().rfind(fits).expect("a row for 1");
            words.push(word);
            left -= number.expect("a number");
        }
        match level {
            0 => zero.to_string(),
            ..0 => format!("{below_zero} {}", words.join(" ")),
            1.. => words.join(" "),
        }
    }

    fn speak_thousands(&self, count: i32) -> [&str; 2] {
        let mut rows = self.counts.iter().chain(&self.numbers);
        let row = rows.find(|row| row.0 == Some(count));
        let form = match count {
            1 => 0,
            2..=4 => 1,
            _ => 2,
        };
        [&row.expect("a row").1, &self.thousands[form][1]]
    }
}

fn numbered(row: Vec<String>) -> Row {
    (row[0].parse().ok(), row[1].clone())
}

#[test]
fn every_word_of_the_levels_has_a_row() {
    let words = Words::read();
    let ones = (1..=20).chain((30..=90).step_by(10));
    let numbers: Vec<_> = ones.chain((100..=900).step_by(100)).map(Some).collect();
    let first = |rows: &[Row]| rows.iter().map(|row| row.0).collect::<Vec<_>>();
    assert_eq!(first(&words.numbers), numbers);
    assert_eq!(first(&words.counts), [Some(1), Some(2)]);
    let conditions = words.thousands.iter().chain(&words.others);
    let conditions: Vec<&str> = conditions.map(|row| &row[0][..]).collect();
    let expected = ["1", "2 to 4", "5 to 9", "0", "below 0"];
    assert_eq!(conditions, expected);
    assert_eq!(words.all().len(), 43);
}

#[test]
fn every_level_is_spoken_by_the_words_of_the_tables() {
    let words = Words::read();
    for level in -9_999..=9_999 {
        let spoken = cp1251(&words.speak(level));
        assert_eq!(speak_level(level, usize::MAX), Ok(spoken), "{level}");
    }
}

/// The words in double quotes of a definition, those with a mark in them, and the numbers before
/// `says`; without the lines that are comments.
fn defined(definition: &str) -> Vec<Row> {
    let is_code = |line: &&str| !line.trim_start().starts_with("--");
    let code: Vec<&str> = definition.lines().filter(is_code).collect();
    let code = code.join("\n");
    let pieces: Vec<&str> = code.split('"').collect();
    let with_what_is_before = pieces.chunks_exact(2);
    with_what_is_before
        .filter(|piece| piece[1].contains('*'))
        .map(|piece| (number_that_says(piece[0]), piece[1].to_string()))
        .collect()
}

/// The number before `says` at the end of a piece of a definition.
fn number_that_says(piece: &str) -> Option<i32> {
    let before = piece.trim_end().strip_suffix("says")?.trim_end();
    let digits = before.rsplit(|c: char| !c.is_ascii_digit()).next()?;
    digits.parse().ok()
}

#[test]
fn the_definition_has_the_words_of_the_tables() {
    let definition = file("crates/spec/specs/SpokenLevels.antt");
    assert_eq!(defined(&definition), Words::read().all());
}

#[test]
fn words_of_a_definition_are_found() {
    let definition = "-- 1 says \"не*т\"\nrows = 1 says \"оди*н\" ∷ (20 says \"два*дцать\") ∷\n  \
                      -- \"не*т\"\nword = \"ты*сяч\"; other = \"нет\"; 3 said \"но*ль\"\n";
    let expected = [
        (Some(1), "оди*н"),
        (Some(20), "два*дцать"),
        (None, "ты*сяч"),
        (None, "но*ль"),
    ];
    let expected = expected.map(|(number, word)| (number, word.to_string()));
    assert_eq!(defined(definition), expected);
}
