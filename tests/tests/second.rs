//! Parts of the paper derived once more, in another manner, and held to the library and the second
//! implementation over all short strings of small alphabets and over random ones.

use govorun_tests::agreed::{book_find, check, edit, names, read_utf8, tape};
use govorun_tests::gen::noise::{bytes, every_string, string};
use govorun_tests::gen::utf8::{taken, TAKEN};
use govorun_tests::gen::{message_of_any_length, Rng};
use govorun_tests::letters::is_vowel;
use govorun_tests::{cp1251, hex, show, spell, Refusal};

/// What an automaton that reads from left to right remembers of the word so far.
#[derive(Clone, Copy, PartialEq)]
enum State {
    WordStart,
    Vowel,
    MarkedVowel,
    Consonant,
    SignAfterVowel(char),
    SignAfterConsonant(char),
}

/// The next state of the automaton, or the number of the refusal.
fn step(state: State, character: char) -> Result<State, u8> {
    use State::*;
    let sign = match state {
        SignAfterVowel(sign) | SignAfterConsonant(sign) => Some(sign),
        _ => None,
    };
    match character {
        ' ' | '#' if state == WordStart => Err(4),
        ' ' | '#' => Ok(WordStart),
        '*' if state == Vowel => Ok(MarkedVowel),
        '*' => Err(5),
        'ъ' | 'ь' if state == WordStart => Err(6),
        'ъ' | 'ь' if sign.is_some() => Err(7),
        'ъ' | 'ь' if state == Consonant => Ok(SignAfterConsonant(character)),
        'ъ' | 'ь' => Ok(SignAfterVowel(character)),
        _ if is_vowel(character) && matches!(state, SignAfterVowel(_)) => Err(9),
        _ if is_vowel(character) => Ok(Vowel),
        'а'..='я' if sign == Some('ъ') => Err(8),
        'а'..='я' => Ok(Consonant),
        _ => Err(3),
    }
}

/// The refusal of a short text by the automaton.
fn refusal_by_automaton(text: &str) -> Option<Refusal> {
    let characters: Vec<char> = text.chars().collect();
    if characters.is_empty() {
        return Some(Refusal::new(1, 0));
    }
    let mut state = State::WordStart;
    let mut letters = 0;
    for (place, &character) in characters.iter().enumerate() {
        match step(state, character) {
            Ok(next) => state = next,
            Err(number) => return Some(Refusal::new(number, place)),
        }
        match character {
            ' ' | '#' => letters = 0,
            '*' => {}
            _ => letters += 1,
        }
        if letters > 64 {
            return Some(Refusal::new(10, place));
        }
    }
    let ends_in_break = state == State::WordStart;
    ends_in_break.then(|| Refusal::new(4, characters.len() - 1))
}

/// The names of a text, by cutting every word behind its vowels.
fn names_by_cutting(text: &str) -> Vec<u8> {
    text.split([' ', '#']).flat_map(names_of_word).collect()
}

fn names_of_word(word: &str) -> Vec<u8> {
    let heard = without_silent(word);
    // One sign for each letter: V for a marked vowel, v for another, c for the rest.
    let letters: String = heard
        .chars()
        .map(|c| if is_vowel(c) { 'v' } else { c })
        .collect();
    let pattern = letters
        .replace("v*", "V")
        .replace(|c| c != 'v' && c != 'V', "c");
    let pieces: Vec<&str> = pattern.split_inclusive(['v', 'V']).collect();
    let unmarked = !pattern.contains('V');
    let name = |index: usize| {
        let piece = pieces[index];
        let before_marked = pieces
            .get(index + 1)
            .is_some_and(|next| next.ends_with('V'));
        let covered = match piece.chars().last() {
            Some('V') => 1,
            Some('v') if before_marked || unmarked => 3,
            Some('v') => 5,
            _ => return 7,
        };
        covered + u8::from(piece.len() == 1)
    };
    (0..pieces.len()).map(name).collect()
}

/// The word without silent letters, by rewriting its clusters. No rewriting makes or breaks a
/// cluster of another, so doing them one after another is the same as all together.
fn without_silent(word: &str) -> String {
    let clusters = [
        ("стск", "сск"),
        ("стн", "сн"),
        ("нтск", "нск"),
        ("рдч", "рч"),
        ("рдц", "рц"),
        ("здн", "зн"),
        ("здц", "зц"),
        ("ндц", "нц"),
        ("ндс", "нс"),
        ("ндшт", "ншт"),
    ];
    let rewritten = |word: String, (from, to): &(&str, &str)| word.replace(from, to);
    clusters.iter().fold(word.to_string(), rewritten)
}

/// The tape of a text over с д в а and breaks, by looking ahead from each letter on its own.
fn voiced_by_looking_ahead(text: &str) -> String {
    let characters: Vec<char> = text.chars().collect();
    let sound = |index: usize| match characters[index] {
        ' ' => "|",
        '#' => "#",
        'а' => "А1",
        letter => hard_sound(letter, is_voiced(&characters[index..])),
    };
    (0..characters.len())
        .map(sound)
        .collect::<Vec<_>>()
        .join(" ")
}

fn hard_sound(letter: char, voiced: bool) -> &'static str {
    match (letter, voiced) {
        ('с', false) => "С",
        ('с', true) => "З",
        ('д', false) => "Т",
        ('д', true) => "Д",
        ('в', false) => "Ф",
        _ => "В",
    }
}

/// Whether the first letter of the rest of the text is voiced.
fn is_voiced(rest: &[char]) -> bool {
    let written = rest[0] != 'с';
    match rest.get(1) {
        None | Some('#') => false,
        Some(' ') => rest[2] != 'а' && rest[2] != 'в' && is_voiced(&rest[2..]),
        Some('а') => written,
        // В passes nothing on; a Ф from the same letter makes voiceless.
        Some('в') => written && is_voiced(&rest[1..]),
        Some(_) => is_voiced(&rest[1..]),
    }
}

/// Whether the first letter of the rest of a word is soft: a chain of letters that pass softness
/// on must lead from it to a letter softened by what is written after it.
fn is_soft_by_chain(rest: &[char]) -> bool {
    let both = |class: &str, one: char, other: char| class.contains(one) && class.contains(other);
    match *rest {
        ['н', 'ч', ..] => true,
        ['т' | 'н' | 'р' | 'б' | 'п', 'ь' | 'е', ..] => true,
        [one, other, ..] if both("тн", one, other) || both("бп", one, other) || one == other => {
            is_soft_by_chain(&rest[1..])
        }
        _ => false,
    }
}

/// The edited form of a text, by making one break of two neighbours until there are none left.
fn edited_by_rewriting(text: &str) -> String {
    let pairs = [("  ", " "), (" #", "#"), ("# ", "#"), ("##", "#")];
    let pauses = text.replace(['.', ',', ';', ':', '?', '!'], "#");
    let mut edited = pauses.replace(['-', '(', ')', '"', '\''], " ");
    while let Some((two, one)) = pairs.iter().find(|(two, _)| edited.contains(two)) {
        edited = edited.replace(two, one);
    }
    edited.trim_matches([' ', '#']).to_string()
}

/// What is read of a text, by taking a character off its start, one of eighty, as long as the rest
/// begins with one.
fn read_by_taking_off(text: &[u8]) -> Result<Vec<u8>, Refusal> {
    let eighty: Vec<String> = TAKEN.chars().map(String::from).collect();
    let mut rest = text;
    let mut read = Vec::new();
    while let Some(one) = eighty.iter().find(|one| rest.starts_with(one.as_bytes())) {
        rest = &rest[one.len()..];
        read.extend(cp1251(one));
    }
    match rest.len() {
        0 => Ok(read),
        left => Err(Refusal::new(13, text.len() - left)),
    }
}

/// What a book is refused with, by taking a record off its start as long as there is one; before it
/// stood so many bytes and, unless it is the first, a record with this number.
fn refusal_by_taking_off(book: &[u8], place: usize, before: Option<u16>) -> Option<Refusal> {
    match *book {
        [] => None,
        [0x52, 0x9F, low, high, _, length, 0, ref rest @ ..] if rest.len() >= length.into() => {
            let number = 256 * u16::from(high) + u16::from(low);
            if before >= Some(number) {
                return Some(Refusal::new(16, place));
            }
            let length = usize::from(length);
            refusal_by_taking_off(&rest[length..], place + 7 + length, Some(number))
        }
        _ => Some(Refusal::new(15, place)),
    }
}

/// What a listener hears of phrase 1 in a sound book, by taking records off its start until that of
/// the phrase comes.
fn heard_by_taking_off(book: &[u8], listener: u32) -> Option<&[u8]> {
    match *book {
        [_, _, 1, 0, set, length, _, ref rest @ ..] => {
            let is_for = [set % 2, set / 2 % 2, set / 4 % 2];
            let is_heard = is_for.get(listener as usize) == Some(&1);
            is_heard.then_some(&rest[..length.into()])
        }
        [_, _, _, _, _, length, _, ref rest @ ..] => {
            heard_by_taking_off(&rest[length.into()..], listener)
        }
        _ => None,
    }
}

#[test]
fn refusals_agree_with_the_automaton() {
    every_string(&cp1251("аябйъь* 7"), 6, &mut agrees_with_automaton);
    let mut rng = Rng::for_test(8);
    for _ in 0..20_000 {
        let length = rng.between(1, 160);
        let alphabet = rng.pick(&["абв*", "аб", "абвгдеж# ", "бвгь", "бвъа"]);
        agrees_with_automaton(&string(&mut rng, &cp1251(alphabet), length));
    }
}

fn agrees_with_automaton(msg: &[u8]) {
    let text = show(msg).replace("<37>", "7");
    assert_eq!(check(msg).err(), refusal_by_automaton(&text), "{text}");
}

#[test]
fn names_agree_with_cutting() {
    let agrees = &mut |msg: &[u8]| {
        if let Ok(names) = names(msg, usize::MAX) {
            assert_eq!(names, names_by_cutting(&show(msg)), "{}", show(msg));
        }
    };
    every_string(&cp1251("аеб*ь "), 7, agrees);
    every_string(&cp1251("стнкд*а"), 6, agrees);
    let mut rng = Rng::for_test(9);
    for _ in 0..2000 {
        agrees(&message_of_any_length(&mut rng));
    }
}

#[test]
fn voice_agrees_with_looking_ahead() {
    every_string(&cp1251("сдва #"), 7, &mut |msg| {
        if let Ok(tape) = tape(msg, usize::MAX) {
            let text = show(msg);
            assert_eq!(spell(&tape), voiced_by_looking_ahead(&text), "{text}");
        }
    });
}

#[test]
fn softness_agrees_with_chains() {
    every_string(&cp1251("тнрбпчеь"), 6, &mut |msg| {
        let Ok(tape) = tape(msg, usize::MAX) else {
            return;
        };
        let spelled = spell(&tape);
        let soft: Vec<bool> = spelled
            .split(' ')
            .filter(|sound| sound.starts_with(['Т', 'Д', 'Н', 'Р', 'Б', 'П', 'Ч']))
            .map(|sound| sound.ends_with('\''))
            .collect();
        let word: Vec<char> = show(msg).chars().collect();
        let expected: Vec<bool> = (0..word.len())
            .filter(|&index| !"еь".contains(word[index]))
            .map(|index| is_soft_by_chain(&word[index..]))
            .collect();
        assert_eq!(soft, expected, "{} {spelled}", show(msg));
    });
}

#[test]
fn editing_agrees_with_rewriting() {
    let agrees = &mut |text: &[u8]| {
        let ascii = std::str::from_utf8(text).expect("ASCII");
        let expected = edited_by_rewriting(ascii).into_bytes();
        assert_eq!(edit(text, usize::MAX), Ok(expected), "{ascii:?}");
    };
    every_string(b"a7 #.-", 6, agrees);
    let mut rng = Rng::for_test(11);
    for _ in 0..5000 {
        let length = rng.below(60);
        agrees(&string(&mut rng, b"ab\n #.,;:?!-()\"'", length));
    }
}

#[test]
fn reading_agrees_with_taking_off() {
    let agrees = &mut |text: &[u8]| {
        let expected = read_by_taking_off(text);
        assert_eq!(read_utf8(text, usize::MAX), expected, "{}", hex(text));
    };
    every_string(b"\xD0\xD1\x81\x91\xB0 *", 6, agrees);
    every_string(b"\xD0\xE0\x90\x80\xB0\xF0#", 5, agrees);
    let mut rng = Rng::for_test(12);
    for _ in 0..20_000 {
        let (length, broken) = (rng.below(30), rng.below(3));
        let text = taken(&mut rng, length).into_bytes();
        let broken = bytes(&mut rng, broken);
        let at = rng.below(text.len() + 1);
        agrees(&[&text[..at], &broken, &text[at..]].concat());
    }
}

/// Short books, in which no tape is so long that its length needs the second byte; alone, and
/// behind a record.
#[test]
fn books_agree_with_taking_off() {
    let records = [
        &b""[..],
        b"\x52\x9F\x00\x00\x00\x00\x00",
        b"\x52\x9F\x01\x00\x05\x01\x00\x52",
    ];
    for before in records {
        for (alphabet, longest) in [(&b"\x52\x9F\x00\x01"[..], 8), (b"\x52\x9F\x00", 9)] {
            every_string(alphabet, longest, &mut |rest| {
                let book = [before, rest].concat();
                (0..4).for_each(|listener| agrees_with_taking_off(&book, listener));
            });
        }
    }
}

fn agrees_with_taking_off(book: &[u8], listener: u32) {
    let expected = match refusal_by_taking_off(book, 0, None) {
        Some(refusal) => Err(refusal),
        None => heard_by_taking_off(book, listener).ok_or(Refusal::new(17, 0)),
    };
    let found = book_find(listener, book, book.len(), 1);
    assert_eq!(found.as_deref(), expected.as_deref(), "{}", hex(book));
}
