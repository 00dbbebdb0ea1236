//! Request 5 of document 02, "Spoken levels": a number in Russian words, by the digits of its
//! decimal form.

use crate::refusals::Refusal;
use crate::text::cp1251;

/// The most bytes that the words of a level take.
pub const LONGEST: usize = 54;

/// What each digit says at its place; 0 says nothing.
#[rustfmt::skip]
const THOUSANDS: [&str; 10] = [
    "", "одна* ты*сяча", "две* ты*сячи", "три* ты*сячи", "четы*ре ты*сячи", "пя*ть ты*сяч",
    "ше*сть ты*сяч", "се*мь ты*сяч", "во*семь ты*сяч", "де*вять ты*сяч",
];
#[rustfmt::skip]
const HUNDREDS: [&str; 10] = [
    "", "сто*", "две*сти", "три*ста", "четы*реста", "пятьсо*т", "шестьсо*т", "семьсо*т",
    "восемьсо*т", "девятьсо*т",
];
/// One ten says nothing by itself: the last digit says it too.
#[rustfmt::skip]
const TENS: [&str; 10] = [
    "", "", "два*дцать", "три*дцать", "со*рок", "пятьдеся*т", "шестьдеся*т", "се*мьдесят",
    "во*семьдесят", "девяно*сто",
];
#[rustfmt::skip]
const UNITS: [&str; 10] = [
    "", "оди*н", "два*", "три*", "четы*ре", "пя*ть", "ше*сть", "се*мь", "во*семь", "де*вять",
];
/// What the last digit says after one ten.
#[rustfmt::skip]
const UNITS_AFTER_ONE_TEN: [&str; 10] = [
    "де*сять", "оди*ннадцать", "двена*дцать", "трина*дцать", "четы*рнадцать", "пятна*дцать",
    "шестна*дцать", "семна*дцать", "восемна*дцать", "девятна*дцать",
];

const ZERO: &str = "но*ль";
const BELOW_ZERO: &str = "ми*нус";

/// The words of a level, or 14 where it is outside the range.
pub fn spoken(level: i32) -> Result<Vec<u8>, Refusal> {
    let number = level.to_string();
    spoken_number(number.as_bytes()).expect("a number in decimal")
}

/// The same for a number in decimal, however long: perhaps a minus, then digits and nothing else.
/// Gives nothing for what is no such number.
pub fn spoken_number(text: &[u8]) -> Option<Result<Vec<u8>, Refusal>> {
    let (is_below_zero, digits) = match text.strip_prefix(b"-") {
        Some(digits) => (true, digits),
        None => (false, text),
    };
    if digits.is_empty() || !digits.iter().all(u8::is_ascii_digit) {
        return None;
    }
    Some(last_four(digits).map(|four| cp1251(&words(is_below_zero, four))))
}

/// The last four digits, where nothing but zeros stands before them.
fn last_four(digits: &[u8]) -> Result<[usize; 4], Refusal> {
    let mut four = [0; 4];
    for digit in digits {
        if four[0] != 0 {
            return Err(Refusal::new(14, 0));
        }
        four.rotate_left(1);
        four[3] = usize::from(digit - b'0');
    }
    Ok(four)
}

fn words(is_below_zero: bool, digits: [usize; 4]) -> String {
    let [thousands, hundreds, tens, units] = digits;
    let last = if tens == 1 {
        UNITS_AFTER_ONE_TEN[units]
    } else {
        UNITS[units]
    };
    let mut said = vec![THOUSANDS[thousands], HUNDREDS[hundreds], TENS[tens], last];
    said.retain(|words| !words.is_empty());
    if said.is_empty() {
        return ZERO.to_string();
    }
    if is_below_zero {
        said.insert(0, BELOW_ZERO);
    }
    said.join(" ")
}
