//! Section "Pass 1, silent letters".

use crate::message::Word;

/// The words without their silent letters. All letters are judged on the word as written, so the
/// answer does not depend on the order of judging.
pub fn elide(words: &[Word]) -> Vec<Word> {
    words.iter().map(elide_word).collect()
}

fn elide_word(written: &Word) -> Word {
    let mut letters = Vec::with_capacity(written.letters.len());
    for (index, &letter) in written.letters.iter().enumerate() {
        if !is_silent(written, index) {
            letters.push(letter);
        }
    }
    Word {
        before: written.before,
        letters,
    }
}

/// Whether the second of four letters is silent: т in the first three patterns, д in the others.
fn is_silent(word: &Word, index: usize) -> bool {
    let around = [
        word.previous(index),
        Some(word.letters[index].letter),
        word.next(index),
        word.next(index + 1),
    ];
    // Outside the word there is no letter, and a space fits none of the patterns.
    matches!(
        around.map(|letter| letter.unwrap_or(' ')),
        ['с', 'т', 'с', 'к']
            | ['с', 'т', 'н', _]
            | ['н', 'т', 'с', 'к']
            | ['р', 'д', 'ч' | 'ц', _]
            | ['з', 'д', 'н' | 'ц', _]
            | ['н', 'д', 'ц' | 'с', _]
            | ['н', 'д', 'ш', 'т']
    )
}
