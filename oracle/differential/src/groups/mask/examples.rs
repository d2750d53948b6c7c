//! The examples of document 01.

use super::{Call, Mask};
use crate::answer::Answer;

pub fn examples() -> Vec<(Call, Answer)> {
    vec![
        (
            Call::UnionAssign(mask(3, &[0]), mask(4, &[0])),
            Answer::wrong_length(3, 4),
        ),
        (Call::Check(mask(65, &[0, 2])), Answer::refused(12)),
        (
            Call::Set {
                mask: mask(3, &[0]),
                index: 3,
                value: true,
            },
            Answer::refused(13),
        ),
        (
            Call::New {
                len: 65,
                out: vec![0],
            },
            Answer::refused(25),
        ),
        (Call::Check(mask(64, &[0])), Answer::done()),
        (Call::Check(mask(65, &[0, 0])), Answer::done()),
        (
            Call::Contains {
                mask: mask(3, &[7]),
                index: 3,
            },
            Answer::told(0),
        ),
    ]
}

fn mask(len: usize, words: &[u64]) -> Mask {
    Mask {
        len,
        words: words.to_vec(),
    }
}
