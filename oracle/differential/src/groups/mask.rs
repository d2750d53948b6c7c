//! The calls on masks.

mod cases;
mod examples;
mod expected;
mod fixed;
mod port;
mod random;
mod small;

pub use cases::{full, of_index, random_right};
pub use expected::{check_mask, check_words, words_needed};

use super::{Function, GroupCall, GroupCalls};
use crate::answer::Answer;
use crate::parts::List::U64;
use crate::parts::Parts;
use crate::rng::Rng;

#[derive(Clone, PartialEq)]
pub struct Mask {
    pub len: usize,
    pub words: Vec<u64>,
}

#[derive(Clone, PartialEq)]
pub enum Call {
    Check(Mask),
    New {
        len: usize,
        out: Vec<u64>,
    },
    FromIndices {
        len: usize,
        indices: Vec<u64>,
        out: Vec<u64>,
    },
    IsEmpty(Mask),
    CountOnes(Mask),
    Set {
        mask: Mask,
        index: u64,
        value: bool,
    },
    Contains {
        mask: Mask,
        index: u64,
    },
    UnionAssign(Mask, Mask),
    IntersectAssign(Mask, Mask),
    AndNotAssign(Mask, Mask),
    Intersects(Mask, Mask),
    Indices {
        mask: Mask,
        out: Vec<u64>,
    },
    OrWord {
        mask: Mask,
        word_index: u64,
        bits: u64,
    },
}

impl GroupCalls for Call {
    const NAME: &'static str = "mask";
    const FUNCTIONS: &'static [Function] = &[
        ("hybit_mask_check", &[1, 11, 12]),
        ("hybit_mask_new", &[1, 25]),
        ("hybit_mask_from_indices", &[1, 13, 25]),
        ("hybit_mask_is_empty", &[1, 11, 12]),
        ("hybit_mask_count_ones", &[1, 11, 12]),
        ("hybit_mask_set", &[1, 11, 12, 13]),
        ("hybit_mask_contains", &[1, 11, 12]),
        ("hybit_mask_union_assign", &[1, 11, 12]),
        ("hybit_mask_intersect_assign", &[1, 11, 12]),
        ("hybit_mask_and_not_assign", &[1, 11, 12]),
        ("hybit_mask_intersects", &[1, 11, 12]),
        ("hybit_mask_indices", &[1, 11, 12, 25]),
        ("hybit_mask_or_word", &[1, 11, 12]),
    ];
    const SHARE: usize = 4;

    fn examples() -> Vec<(Self, Answer)> {
        examples::examples()
    }

    fn fixed(run: &mut dyn FnMut(Self)) {
        small::run(run);
        fixed::run(run);
    }

    fn random(rng: &mut Rng) -> Self {
        random::random(rng)
    }

    fn edges(offer: &mut dyn FnMut(Self)) {
        cases::edges(offer);
    }
}

impl GroupCall for Call {
    fn place(&self) -> usize {
        match self {
            Call::Check(..) => 0,
            Call::New { .. } => 1,
            Call::FromIndices { .. } => 2,
            Call::IsEmpty(..) => 3,
            Call::CountOnes(..) => 4,
            Call::Set { .. } => 5,
            Call::Contains { .. } => 6,
            Call::UnionAssign(..) => 7,
            Call::IntersectAssign(..) => 8,
            Call::AndNotAssign(..) => 9,
            Call::Intersects(..) => 10,
            Call::Indices { .. } => 11,
            Call::OrWord { .. } => 12,
        }
    }

    fn parts(&mut self) -> Parts<'_> {
        match self {
            Call::Check(mask) | Call::IsEmpty(mask) | Call::CountOnes(mask) => mask.read(),
            Call::New { len, out } => Parts::new()
                .number("len", *len as u64)
                .written("out", U64(out)),
            Call::FromIndices { len, indices, out } => Parts::new()
                .number("len", *len as u64)
                .written("out", U64(out))
                .read("indices", U64(indices)),
            Call::Set { mask, index, value } => mask
                .written()
                .number("index", *index)
                .number("value", u64::from(*value)),
            Call::Contains { mask, index } => mask.read().number("index", *index),
            Call::UnionAssign(mask, other)
            | Call::IntersectAssign(mask, other)
            | Call::AndNotAssign(mask, other) => other.add_to(mask.written()),
            Call::Intersects(mask, other) => other.add_to(mask.read()),
            Call::Indices { mask, out } => mask.read().written("out", U64(out)),
            Call::OrWord {
                mask,
                word_index,
                bits,
            } => mask
                .written()
                .number("word_index", *word_index)
                .number("bits", *bits),
        }
    }

    fn ask_port(&mut self) -> Answer {
        port::answer(self)
    }

    fn expect(&mut self) -> Result<Answer, Answer> {
        expected::answer(self)
    }

    /// Of a refusal on two masks: the first mask, the lengths or the second.
    fn told_apart(&self, answer: Answer) -> u64 {
        match self {
            Call::UnionAssign(mask, other)
            | Call::IntersectAssign(mask, other)
            | Call::AndNotAssign(mask, other)
            | Call::Intersects(mask, other)
                if answer.number > 0 =>
            {
                match (expected::check_mask(mask), mask.len == other.len) {
                    (Err(_), _) => 0,
                    (Ok(()), false) => 1,
                    (Ok(()), true) => 2,
                }
            }
            _ => answer.none_zero_or_more(),
        }
    }
}

impl Mask {
    fn read(&mut self) -> Parts<'_> {
        Parts::new()
            .number("len", self.len as u64)
            .read("words", U64(&mut self.words))
    }

    fn written(&mut self) -> Parts<'_> {
        Parts::new()
            .number("len", self.len as u64)
            .written("words", U64(&mut self.words))
    }

    /// Adds this as the second mask.
    fn add_to<'call>(&'call mut self, parts: Parts<'call>) -> Parts<'call> {
        parts
            .number("other_len", self.len as u64)
            .read("other", U64(&mut self.words))
    }
}
