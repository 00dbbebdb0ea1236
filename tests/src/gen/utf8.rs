//! Texts in UTF-8 of the characters that are taken, and sequences that are not to be taken.

use super::Rng;

/// All characters that are taken.
pub const TAKEN: &str = "абвгдеёжзийклмнопрстуфхцчшщъыьэюя\
                         АБВГДЕЁЖЗИЙКЛМНОПРСТУФХЦЧШЩЪЫЬЭЮЯ* #.,;:?!-()\"'";

/// Those of them that have one byte.
const PLAIN: &str = "* #.,;:?!-()\"'";

/// A text of so many characters that are taken: letters and others, or the one or the other alone.
pub fn taken(rng: &mut Rng, characters: usize) -> String {
    let alphabet = rng.pick(&[TAKEN, TAKEN, TAKEN, PLAIN, "ёЁяЯаА", "пр"]);
    let alphabet: Vec<char> = alphabet.chars().collect();
    (0..characters).map(|_| rng.pick(&alphabet)).collect()
}

/// Sequences that are refused at their first byte wherever they stand: malformed ones of every
/// kind, and other characters.
pub fn untaken() -> Vec<Vec<u8>> {
    let malformed = [STRAY, NOWHERE, OVERLONG, SURROGATE, ABOVE, CUT_SHORT].concat();
    let others = OTHERS.iter().flat_map(|others| others.chars());
    let encoded = others.map(|other| other.to_string().into_bytes());
    malformed
        .into_iter()
        .map(<[u8]>::to_vec)
        .chain(encoded)
        .collect()
}

/// Bytes that go on a sequence where none has begun. Some would be letters in Windows-1251.
const STRAY: &[&[u8]] = &[
    b"\x80", b"\x81", b"\x8F", b"\x90", b"\xA0", b"\xA8", b"\xB8", b"\xBF",
];

/// Bytes that stand nowhere in UTF-8, all of them letters in Windows-1251.
const NOWHERE: &[&[u8]] = &[
    b"\xC0", b"\xC1", b"\xF5", b"\xF7", b"\xF8", b"\xFB", b"\xFC", b"\xFD", b"\xFE", b"\xFF",
];

/// Characters in more bytes than they take, up to the six that were once allowed: gap, mark, pause,
/// stop, NUL and A; then а, п, р, я, ё, А and Ё.
#[rustfmt::skip]
const OVERLONG: &[&[u8]] = &[
    b"\xC0\xA0", b"\xE0\x80\xA0", b"\xF0\x80\x80\xA0", b"\xF8\x80\x80\x80\xA0",
    b"\xFC\x80\x80\x80\x80\xA0", b"\xC0\xAA", b"\xE0\x80\xAA", b"\xF0\x80\x80\xAA", b"\xC0\xA3",
    b"\xF0\x80\x80\xA3", b"\xC0\xAE", b"\xC0\x80", b"\xC1\x81",
    b"\xE0\x90\xB0", b"\xF0\x80\x90\xB0", b"\xF8\x80\x80\x90\xB0", b"\xE0\x90\xBF",
    b"\xE0\x91\x80", b"\xF0\x80\x91\x80", b"\xE0\x91\x8F", b"\xF0\x80\x91\x8F", b"\xE0\x91\x91",
    b"\xF0\x80\x91\x91", b"\xE0\x90\x90", b"\xE0\x90\x81", b"\xF0\x80\x90\x81",
];

/// The ends of both halves; and a pair, which some writers make of one character.
const SURROGATE: &[&[u8]] = &[
    b"\xED\xA0\x80",
    b"\xED\xAF\xBF",
    b"\xED\xB0\x80",
    b"\xED\xBF\xBF",
    b"\xED\xA0\xBD\xED\xB8\x80",
];

/// Numbers above 10FFFF.
const ABOVE: &[&[u8]] = &[
    b"\xF4\x90\x80\x80",
    b"\xF4\xBF\xBF\xBF",
    b"\xF5\x80\x80\x80",
    b"\xF7\xBF\xBF\xBF",
    b"\xF8\x88\x80\x80\x80",
    b"\xFC\x84\x80\x80\x80\x80",
];

/// Sequences without their ends. What is taken begins with no byte that could end them.
#[rustfmt::skip]
const CUT_SHORT: &[&[u8]] = &[
    b"\xD0", b"\xD1", b"\xC2", b"\xDF", b"\xE0", b"\xE0\xA0", b"\xE2", b"\xE2\x80", b"\xED\x9F",
    b"\xEF\xBB", b"\xF0", b"\xF0\x9F", b"\xF0\x9F\x98", b"\xF4\x8F\xBF",
];

/// Characters that are not taken: of ASCII; letters, of which Ѐ, Џ and ѐ stand beside Ё, А and я;
/// what makes й of и, ё of е and shows a stress, where it is no part of the letter; the mark that
/// may begin a text, gaps, dashes, quotes, dots and signs; and the first and the last in two bytes,
/// in three and in four, and those beside the surrogates.
const OTHERS: [&str; 5] = [
    "\0\t\n\r\u{1F}$%&+/079<@A[_`acsz~\u{7F}",
    "ЀЂЏѐђіїўѝџѠѣґҟҀéÿàοϿ",
    "\u{306}\u{308}\u{301}",
    "\u{FEFF}\u{A0}\u{2009}\u{AD}–—«»„’…№\u{FFFD}☃😀",
    "\u{80}\u{7FF}\u{800}\u{D7FF}\u{E000}\u{FFFF}\u{10000}\u{10FFFF}",
];
