//! What a call on a topology word is expected to answer.

use hybit_open::AbtmTopologyWord;
use hybit_original::ABTM_TOPOLOGY_WORD_BITS;

use super::{Call, Word};
use crate::answer::Answer;
use crate::expected::refusal;

pub fn answer(call: &Call) -> Result<Answer, Answer> {
    Ok(match call {
        Call::Bits => Answer::told(ABTM_TOPOLOGY_WORD_BITS as u64),
        Call::Index(word) => Answer::told(u64::from(word.open().word_index())),
        Call::BaseCol(word) => Answer::told(word.open().base_col() as u64),
        Call::Mask(word) => Answer::told(word.open().mask()),
        Call::Popcount(word) => Answer::told(word.open().popcount() as u64),
        Call::ContainsOffset(word, offset) => {
            let yes = word.open().contains_offset(*offset as usize);
            Answer::told(u64::from(yes))
        }
        Call::Rank(word, offset) => {
            let rank = word.open().rank(*offset as usize).map_err(refusal)?;
            Answer::told(rank as u64)
        }
        Call::Select(word, ordinal) => match word.open().select(*ordinal as usize) {
            Some(bit) => Answer::told(bit as u64),
            None => Answer::none(),
        },
    })
}

impl Word {
    /// The original's type, made by hand.
    fn open(&self) -> AbtmTopologyWord {
        AbtmTopologyWord {
            word_index: self.word_index,
            mask: self.mask,
        }
    }
}
