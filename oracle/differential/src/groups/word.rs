//! The calls on a topology word.

mod cases;
mod examples;
mod expected;
mod port;

use super::{Function, GroupCall, GroupCalls};
use crate::answer::Answer;
use crate::parts::Parts;
use crate::rng::Rng;

#[derive(Clone, Copy, PartialEq)]
pub struct Word {
    pub word_index: u32,
    pub mask: u64,
}

#[derive(Clone, PartialEq)]
pub enum Call {
    Bits,
    Index(Word),
    BaseCol(Word),
    Mask(Word),
    Popcount(Word),
    ContainsOffset(Word, u64),
    Rank(Word, u64),
    Select(Word, u64),
}

impl GroupCalls for Call {
    const NAME: &'static str = "word";
    const FUNCTIONS: &'static [Function] = &[
        ("hybit_word_bits", &[]),
        ("hybit_word_word_index", &[]),
        ("hybit_word_base_col", &[]),
        ("hybit_word_mask", &[]),
        ("hybit_word_popcount", &[]),
        ("hybit_word_contains_offset", &[]),
        ("hybit_word_rank", &[13]),
        ("hybit_word_select", &[]),
    ];

    fn examples() -> Vec<(Self, Answer)> {
        examples::examples()
    }

    fn fixed(run: &mut dyn FnMut(Self)) {
        cases::fixed(run);
    }

    fn random(rng: &mut Rng) -> Self {
        cases::random(rng)
    }

    fn edges(offer: &mut dyn FnMut(Self)) {
        cases::edges(offer);
    }
}

impl GroupCall for Call {
    fn place(&self) -> usize {
        match self {
            Call::Bits => 0,
            Call::Index(..) => 1,
            Call::BaseCol(..) => 2,
            Call::Mask(..) => 3,
            Call::Popcount(..) => 4,
            Call::ContainsOffset(..) => 5,
            Call::Rank(..) => 6,
            Call::Select(..) => 7,
        }
    }

    fn parts(&mut self) -> Parts<'_> {
        match self {
            Call::Bits => Parts::new(),
            Call::Index(word) | Call::BaseCol(word) | Call::Mask(word) | Call::Popcount(word) => {
                word.parts()
            }
            Call::ContainsOffset(word, offset) | Call::Rank(word, offset) => {
                word.parts().number("offset", *offset)
            }
            Call::Select(word, ordinal) => word.parts().number("ordinal", *ordinal),
        }
    }

    fn ask_port(&mut self) -> Answer {
        port::answer(self)
    }

    fn expect(&mut self) -> Result<Answer, Answer> {
        expected::answer(self)
    }
}

impl Word {
    fn parts(&self) -> Parts<'static> {
        Parts::new()
            .number("word_index", u64::from(self.word_index))
            .number("mask", self.mask)
    }
}
