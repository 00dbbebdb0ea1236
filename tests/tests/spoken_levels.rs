//! Spoken levels, request 5 of document 02: worked examples, every level with outputs of every
//! length, numbers outside the range, and what holds of the words of all levels.

use std::collections::BTreeSet;
use std::ops::RangeInclusive;

use govorun_tests::agreed::{
    check, edit, lent, live_places, names, read_utf8, speak_level, tape, write_utf8, PAIR,
};
use govorun_tests::fence::{Fenced, SIDES};
use govorun_tests::gen::{every_list, Rng};
use govorun_tests::spoken_levels::LONGEST;
use govorun_tests::trial::{self, Operation, Trial};
use govorun_tests::{cp1251, spell, Answer, Refusal};

/// All levels that are spoken.
const RANGE: RangeInclusive<i32> = -9_999..=9_999;

/// What each level must be spoken as, with any output that is long enough and no other.
fn are_spoken(list: &[(i32, &str)]) {
    for &(level, text) in list {
        let words = cp1251(text);
        let length = words.len();
        assert_eq!(speak_level(level, length), Ok(words.clone()), "{level}");
        assert_eq!(speak_level(level, LONGEST), Ok(words), "{level}");
        let short = Err(Refusal::new(11, length));
        assert_eq!(speak_level(level, length - 1), short, "{level}");
        assert_eq!(speak_level(level, 0), short, "{level}");
    }
}

#[test]
fn one_word() {
    are_spoken(&[
        (0, "но*ль"),
        (1, "оди*н"),
        (2, "два*"),
        (3, "три*"),
        (4, "четы*ре"),
        (5, "пя*ть"),
        (6, "ше*сть"),
        (7, "се*мь"),
        (8, "во*семь"),
        (9, "де*вять"),
        (10, "де*сять"),
        (11, "оди*ннадцать"),
        (12, "двена*дцать"),
        (13, "трина*дцать"),
        (14, "четы*рнадцать"),
        (15, "пятна*дцать"),
        (16, "шестна*дцать"),
        (17, "семна*дцать"),
        (18, "восемна*дцать"),
        (19, "девятна*дцать"),
        (20, "два*дцать"),
        (30, "три*дцать"),
        (40, "со*рок"),
        (50, "пятьдеся*т"),
        (60, "шестьдеся*т"),
        (70, "се*мьдесят"),
        (80, "во*семьдесят"),
        (90, "девяно*сто"),
        (100, "сто*"),
        (200, "две*сти"),
        (300, "три*ста"),
        (400, "четы*реста"),
        (500, "пятьсо*т"),
        (600, "шестьсо*т"),
        (700, "семьсо*т"),
        (800, "восемьсо*т"),
        (900, "девятьсо*т"),
    ]);
}

/// The count is feminine, and the word stands in the form that the count asks for.
#[test]
fn thousands() {
    are_spoken(&[
        (1_000, "одна* ты*сяча"),
        (2_000, "две* ты*сячи"),
        (3_000, "три* ты*сячи"),
        (4_000, "четы*ре ты*сячи"),
        (5_000, "пя*ть ты*сяч"),
        (6_000, "ше*сть ты*сяч"),
        (7_000, "се*мь ты*сяч"),
        (8_000, "во*семь ты*сяч"),
        (9_000, "де*вять ты*сяч"),
        (-1_000, "ми*нус одна* ты*сяча"),
    ]);
}

/// What stands after the thousands is masculine all the same.
#[test]
fn several_words() {
    are_spoken(&[
        (21, "два*дцать оди*н"),
        (42, "со*рок два*"),
        (99, "девяно*сто де*вять"),
        (101, "сто* оди*н"),
        (110, "сто* де*сять"),
        (112, "сто* двена*дцать"),
        (120, "сто* два*дцать"),
        (222, "две*сти два*дцать два*"),
        (319, "три*ста девятна*дцать"),
        (999, "девятьсо*т девяно*сто де*вять"),
        (1_001, "одна* ты*сяча оди*н"),
        (1_011, "одна* ты*сяча оди*ннадцать"),
        (1_100, "одна* ты*сяча сто*"),
        (2_002, "две* ты*сячи два*"),
        (2_022, "две* ты*сячи два*дцать два*"),
        (4_004, "четы*ре ты*сячи четы*ре"),
        (5_040, "пя*ть ты*сяч со*рок"),
        (6_616, "ше*сть ты*сяч шестьсо*т шестна*дцать"),
        (9_999, "де*вять ты*сяч девятьсо*т девяно*сто де*вять"),
    ]);
}

#[test]
fn below_zero() {
    are_spoken(&[
        (-1, "ми*нус оди*н"),
        (-10, "ми*нус де*сять"),
        (-300, "ми*нус три*ста"),
        (-2_001, "ми*нус две* ты*сячи оди*н"),
        (
            -4_989,
            "ми*нус четы*ре ты*сячи девятьсо*т во*семьдесят де*вять",
        ),
        (
            -9_999,
            "ми*нус де*вять ты*сяч девятьсо*т девяно*сто де*вять",
        ),
    ]);
}

/// The words of a level, on which all implementations agree.
fn words(level: i32) -> Vec<u8> {
    speak_level(level, LONGEST).expect("a level within the range")
}

/// The words in UTF-8.
fn text(level: i32) -> String {
    let written = write_utf8(&words(level), usize::MAX).expect("an accepted message");
    String::from_utf8(written).expect("UTF-8")
}

#[test]
fn sounds() {
    for (level, expected) in [
        (0, "Н О* Л'"),
        (4, "Ч Э1 Т Ы* Р' Э2"),
        (8, "В О* С' Э2 М'"),
        (11, "А1 Д' И* Н Н А2 Т Ц А2 Т'"),
        (12, "Д В' Э1 Н А* Т Ц А2 Т'"),
        (14, "Ч Э1 Т Ы* Р Н А2 Т Ц А2 Т'"),
        // The т of the sixteen is silent.
        (16, "Ш Ы1 С Н А* Т Ц А2 Т'"),
        (18, "В А2 С' Э1 М Н А* Т Ц А2 Т'"),
        (41, "С О* Р А2 К | А1 Д' И* Н"),
        (42, "С О* Р А2 Г | Д В А*"),
        (22, "Д В А* Т Ц А2 Д' | Д В А*"),
        (60, "Ш А2 З' Д' Д' Э1 С' А* Т"),
        (90, "Д' Э2 В' Э1 Н О* С Т А2"),
        (200, "Д В' Э* С' Т' И1"),
        (600, "Ш Ы1 С' Т' С О* Т"),
        (-1, "М' И* Н У1 С | А1 Д' И* Н"),
        (-2, "М' И* Н У1 З | Д В А*"),
        (1_000, "А1 Д Н А* | Т Ы* С' Э2 Ч Э2"),
        (5_002, "П' А* Т' | Т Ы* С' Э2 Ч1 | Д В А*"),
        (
            -4_989,
            "М' И* Н У1 С | Ч Э1 Т Ы* Р' Э2 | Т Ы* С' Э2 Ч И1 | Д' Э2 В' Э1 Т' С О* Т | \
             В О* С' Э2 М' Д' Э2 С' Э2 Д | Д' Э* В' Э2 Т'",
        ),
    ] {
        let tape = tape(&words(level), usize::MAX).expect("an accepted message");
        assert_eq!(spell(&tape), expected, "{level}");
    }
}

#[test]
fn answers_and_lent_output() {
    let answer = Answer::without_cuts;
    let tried = |level, before: &[u8]| lent(Operation::SpeakLevel(level), &[], before);
    let written = cp1251("сто* де*сять");
    let longer = [&written[..], &[9, 9]].concat();
    assert_eq!(tried(110, &[9; 14]), (answer(0, 0, 12), longer));
    assert_eq!(tried(110, &[9; 12]), (answer(0, 0, 12), written));
    assert_eq!(tried(110, &[9; 11]), (answer(11, 12, 0), vec![9; 11]));
    assert_eq!(tried(110, &[]), (answer(11, 12, 0), vec![]));
    // 14 comes first, wherever the output ends.
    for level in [10_000, -10_000, i32::MAX, i32::MIN] {
        assert_eq!(tried(level, &[9; 60]), (answer(14, 0, 0), vec![9; 60]));
        assert_eq!(tried(level, &[9; 1]), (answer(14, 0, 0), vec![9; 1]));
        assert_eq!(tried(level, &[]), (answer(14, 0, 0), vec![]));
    }
}

/// A level with outputs of these lengths, among bytes that must stay.
fn with_outputs(rng: &mut Rng, level: i32, caps: impl IntoIterator<Item = usize>) {
    let trial = Trial::new(Operation::SpeakLevel(level), &[]);
    for cap in caps {
        let tried = trial.with_output(rng, cap);
        tried.unwrap_or_else(|difference| panic!("{difference}"));
    }
}

/// The last output is far longer than any words.
#[test]
fn every_level_with_outputs_of_every_length() {
    let mut rng = Rng::for_test(120);
    for level in RANGE {
        with_outputs(&mut rng, level, (0..=LONGEST + 2).chain([200]));
    }
}

/// Numbers outside the range: those close to it, those at the ends of their type, and those whose
/// lower 16 bits alone would be a level.
fn outside(rng: &mut Rng) -> Vec<i32> {
    let mut numbers: Vec<i32> = (10_000..=12_000).flat_map(|n| [n, -n]).collect();
    numbers.extend(i32::MIN..=i32::MIN + 12_000);
    numbers.extend(i32::MAX - 12_000..=i32::MAX);
    for level in RANGE {
        let upper = (rng.bits() as i32) << 16;
        numbers.extend([65_536 + level, level - 65_536, upper.wrapping_add(level)]);
    }
    numbers.retain(|number| !RANGE.contains(number));
    numbers
}

#[test]
fn numbers_outside_the_range() {
    let mut rng = Rng::for_test(121);
    let outside = outside(&mut rng);
    println!("{} numbers", outside.len());
    for level in outside {
        let refused = speak_level(level, usize::MAX);
        assert_eq!(refused, Err(Refusal::new(14, 0)), "{level}");
        with_outputs(&mut rng, level, [0, 1, 13, LONGEST, 100]);
    }
}

#[test]
fn any_numbers() {
    let mut rng = Rng::for_test(122);
    for _ in 0..200_000 {
        let bits = rng.below(32);
        let level = rng.bits() as i32 >> bits;
        let tried = trial::with_any_output(&mut rng, Operation::SpeakLevel(level), &[]);
        tried.unwrap_or_else(|difference| panic!("{difference}"));
    }
}

#[test]
fn nothing_outside_is_touched() {
    let mut output = Fenced::new(LONGEST + 10);
    for level in (-10_050..=10_050).chain([i32::MIN, i32::MAX]) {
        let trial = Trial::new(Operation::SpeakLevel(level), &[]);
        let full = trial.length();
        for cap in [0, 1, full.saturating_sub(1), full, full + 1, full + 10] {
            for side in SIDES {
                let tried = trial.in_place(&[], side(&mut output, cap));
                tried.unwrap_or_else(|difference| panic!("{difference}"));
            }
        }
    }
}

#[test]
fn two_levels_have_equal_words_only_if_they_are_equal() {
    let all: BTreeSet<Vec<u8>> = RANGE.map(words).collect();
    assert_eq!(all.len(), 19_999);
}

#[test]
fn the_longest_words() {
    let longest: Vec<i32> = RANGE.filter(|&level| words(level).len() == 54).collect();
    let expected = [
        -4_989, -4_988, -4_984, -4_889, -4_888, -4_884, -4_489, -4_488, -4_484,
    ];
    assert_eq!(longest, expected);
    assert_eq!(RANGE.map(|level| words(level).len()).max(), Some(LONGEST));
}

#[test]
fn each_word_has_small_letters_and_one_mark() {
    let mut met = BTreeSet::new();
    for level in RANGE {
        met.extend(text(level).split(' ').map(str::to_string));
    }
    assert_eq!(met.len(), 43);
    for word in met {
        let letters: String = word.chars().filter(|&c| c != '*').collect();
        assert_eq!(letters.chars().count() + 1, word.chars().count(), "{word}");
        assert!(letters.chars().all(|c| ('а'..='я').contains(&c)), "{word}");
    }
}

/// The parts are the sign, the thousands, the hundreds and what is left.
#[test]
fn the_words_of_a_level_are_those_of_its_parts_in_a_row() {
    for level in 1..=9_999 {
        let parts = [
            level / 1_000 * 1_000,
            level % 1_000 / 100 * 100,
            level % 100,
        ];
        let spoken = parts.into_iter().filter(|&part| part != 0).map(text);
        let expected = spoken.collect::<Vec<_>>().join(" ");
        assert_eq!(text(level), expected);
        assert_eq!(text(-level), format!("ми*нус {expected}"));
    }
}

/// The words are an accepted message, which the editor leaves as it is and which is read as it was
/// written.
#[test]
fn the_words_are_a_message() {
    for level in RANGE {
        let words = words(level);
        let counts = check(&words).expect("an accepted message");
        assert_eq!(tape(&words, usize::MAX).map(|t| t.len()), Ok(counts.codes));
        assert_eq!(names(&words, usize::MAX).map(|n| n.len()), Ok(counts.names));
        assert_eq!(edit(&words, words.len()), Ok(words.clone()), "{level}");
        let written = write_utf8(&words, usize::MAX).expect("an accepted message");
        assert_eq!(read_utf8(&written, words.len()), Ok(words), "{level}");
    }
}

/// Where a cut is live, by a rule for these words alone: the noise letters that end one are к, с, т
/// and ч, the only sounds of set D that begin one are Д and Д', and none begins with и or э.
fn live_by_letters(text: &str) -> Vec<usize> {
    let letters: Vec<char> = text.chars().collect();
    let is_live = |&gap: &usize| {
        let before = letters[..gap].iter().rfind(|&&letter| letter != 'ь');
        let is_noise = before.is_some_and(|&letter| "кстч".contains(letter));
        is_noise && letters[gap..].starts_with(&[' ', 'д'])
    };
    (0..letters.len()).filter(is_live).collect()
}

/// Demand 3 for every list of cuts.
#[test]
fn cuts_between_the_words() {
    for level in RANGE {
        let words = words(level);
        let wholes = PAIR.wholes(&words).expect("an accepted message");
        let live = live_by_letters(&text(level));
        assert_eq!(live_places(&words), live, "{level}");
        for cuts in every_list(&words) {
            PAIR.holds(&words, &wholes, &live, &cuts);
        }
    }
}
