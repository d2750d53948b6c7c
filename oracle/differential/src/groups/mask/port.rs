//! The port's answers.

use super::Call;
use crate::answer::Answer;
use crate::port::port;

macro_rules! on_two {
    ($function:ident, $mask:ident, $other:ident) => {
        port!($function(
            $mask.len,
            [$mask.words],
            $other.len,
            [$other.words]
        ))
    };
}

pub fn answer(call: &mut Call) -> Answer {
    let answer = match call {
        Call::Check(mask) => port!(hybit_mask_check(mask.len, [mask.words])),
        Call::New { len, out } => port!(hybit_mask_new(*len, [out])),
        Call::FromIndices { len, indices, out } => {
            port!(hybit_mask_from_indices(*len, [indices], [out]))
        }
        Call::IsEmpty(mask) => port!(hybit_mask_is_empty(mask.len, [mask.words])),
        Call::CountOnes(mask) => port!(hybit_mask_count_ones(mask.len, [mask.words])),
        Call::Set { mask, index, value } => {
            port!(hybit_mask_set(mask.len, [mask.words], *index, *value))
        }
        Call::Contains { mask, index } => {
            port!(hybit_mask_contains(mask.len, [mask.words], *index))
        }
        Call::UnionAssign(mask, other) => on_two!(hybit_mask_union_assign, mask, other),
        Call::IntersectAssign(mask, other) => on_two!(hybit_mask_intersect_assign, mask, other),
        Call::AndNotAssign(mask, other) => on_two!(hybit_mask_and_not_assign, mask, other),
        Call::Intersects(mask, other) => on_two!(hybit_mask_intersects, mask, other),
        Call::Indices { mask, out } => {
            port!(hybit_mask_indices(mask.len, [mask.words], [out]))
        }
        Call::OrWord {
            mask,
            word_index,
            bits,
        } => port!(hybit_mask_or_word(
            mask.len,
            [mask.words],
            *word_index,
            *bits
        )),
    };
    answer.into()
}
