//! The examples of document 01.

use super::{Call, Word};
use crate::answer::Answer;

pub fn examples() -> Vec<(Call, Answer)> {
    let word = Word {
        word_index: 0,
        mask: 22,
    };
    vec![
        (Call::Bits, Answer::told(64)),
        (Call::Rank(word, 2), Answer::told(1)),
        (Call::Rank(word, 64), Answer::told(3)),
        (Call::Rank(word, 65), Answer::refused(13)),
        (Call::Select(word, 2), Answer::told(4)),
        (Call::Select(word, 3), Answer::none()),
    ]
}
