//! The port's answers.

use super::{Call, Word};
use crate::answer::Answer;
use crate::port::port;

pub fn answer(call: &Call) -> Answer {
    match *call {
        Call::Bits => Answer::told(port!(hybit_word_bits()) as u64),
        Call::Index(Word { word_index, mask }) => {
            Answer::told(u64::from(port!(hybit_word_word_index(word_index, mask))))
        }
        Call::BaseCol(Word { word_index, mask }) => {
            Answer::told(port!(hybit_word_base_col(word_index, mask)) as u64)
        }
        Call::Mask(Word { word_index, mask }) => {
            Answer::told(port!(hybit_word_mask(word_index, mask)))
        }
        Call::Popcount(Word { word_index, mask }) => {
            Answer::told(port!(hybit_word_popcount(word_index, mask)) as u64)
        }
        Call::ContainsOffset(Word { word_index, mask }, offset) => {
            let yes = port!(hybit_word_contains_offset(
                word_index,
                mask,
                offset as usize
            ));
            Answer::told(u64::from(yes))
        }
        Call::Rank(Word { word_index, mask }, offset) => {
            port!(hybit_word_rank(word_index, mask, offset as usize)).into()
        }
        Call::Select(Word { word_index, mask }, ordinal) => {
            port!(hybit_word_select(word_index, mask, ordinal as usize)).into()
        }
    }
}
