//! Section "Codes": the sounds, their codes, and the tape laid from them.

use crate::message::{Break, Word};

/// The sounds in the order of their codes, which begin at 1.
#[rustfmt::skip]
pub const NAMES: [&str; 56] = [
    "А*", "О*", "Э*", "Ы*", "И*", "У*", "А1", "Э1", "Ы1", "И1", "У1", "А2", "Э2", "О", "Е",
    "Б", "Б'", "В", "В'", "Г", "Г'", "Х1", "Х1'", "Д", "Д'", "Ж", "Ж'", "J", "З", "З'",
    "К", "К'", "Л", "Л'", "М", "М'", "Н", "Н'", "П", "П'", "Р", "Р'", "С", "С'", "Т", "Т'",
    "Ф", "Ф'", "Х", "Х'", "Ц", "Ц1", "Ч", "Ч1", "Ш", "Щ",
];

pub const GAP: u8 = 0;
pub const PAUSE: u8 = 63;

/// The code of a sound by its name. A name that is not in the list stops the build.
macro_rules! sound {
    ($name:literal) => {
        const { $crate::codes::code($name) }
    };
}
pub(crate) use sound;

/// The code of the sound with this name.
pub const fn code(name: &str) -> u8 {
    let mut index = 0;
    while index < NAMES.len() {
        if same(NAMES[index].as_bytes(), name.as_bytes()) {
            return index as u8 + 1;
        }
        index += 1;
    }
    panic!("no sound has this name")
}

/// Comparison of texts; the usual one cannot be used while building.
const fn same(left: &[u8], right: &[u8]) -> bool {
    if left.len() != right.len() {
        return false;
    }
    let mut index = 0;
    while index < left.len() {
        if left[index] != right[index] {
            return false;
        }
        index += 1;
    }
    true
}

/// The soft sound of a hard one: the list has it right after.
pub fn softened(hard: u8) -> u8 {
    hard + 1
}

/// What one letter sounds like: nothing for a sign, else one sound with perhaps a glide before.
#[derive(Clone, Copy, Debug, Default)]
pub struct Spoken {
    pub glide: bool,
    pub sound: Option<u8>,
}

impl Spoken {
    /// The first sound of the letter.
    fn first(&self) -> Option<u8> {
        if self.glide {
            Some(sound!("J"))
        } else {
            self.sound
        }
    }
}

/// The first sound of a run of letters.
pub fn first_sound(letters: &[Spoken]) -> Option<u8> {
    letters.iter().find_map(Spoken::first)
}

/// A code of a tape and what made it: a small letter, whose glide is its own too, or a break.
#[derive(Clone, Copy, Debug, PartialEq, Eq)]
pub struct Made {
    pub code: u8,
    pub by: char,
}

/// The tape of words that have gone through all passes.
pub fn lay(words: &[Word], spoken: &[Vec<Spoken>]) -> Vec<Made> {
    let mut tape = Vec::new();
    for (word, sounds) in words.iter().zip(spoken) {
        let mut push = |code, by| tape.push(Made { code, by });
        match word.before {
            Some(Break::Gap) => push(GAP, ' '),
            Some(Break::Pause) => push(PAUSE, '#'),
            None => {}
        }
        for (letter, spoken) in word.letters.iter().zip(sounds) {
            if spoken.glide {
                push(sound!("J"), letter.letter);
            }
            if let Some(code) = spoken.sound {
                push(code, letter.letter);
            }
        }
    }
    tape
}

/// A tape in the paper's notation: names of sounds, `|` for a gap and `#` for a pause.
pub fn spell(tape: &[u8]) -> String {
    let named = |&code: &u8| match code {
        GAP => "|",
        PAUSE => "#",
        _ => NAMES[usize::from(code) - 1],
    };
    tape.iter().map(named).collect::<Vec<_>>().join(" ")
}
