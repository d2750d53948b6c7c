//! The job on a text: the text is read, a region prepared, and the answer
//! written as a text again. A refusal is an answer's text too; the call itself
//! only refuses (25) where that text has no room.

mod cases;
mod damaged;
mod edges;
mod examples;
mod expected;
mod fixed;
mod random;
mod reading;
mod recorded;

pub use expected::text as answer_text;
pub use recorded::recorded;

use super::{Function, GroupCall, GroupCalls};
use crate::answer::Answer;
use crate::parts::List::U8;
use crate::parts::Parts;
use crate::port::port;
use crate::rng::Rng;

#[derive(Clone, PartialEq)]
pub struct Call {
    pub input: Vec<u8>,
    pub out: Vec<u8>,
}

impl GroupCalls for Call {
    const NAME: &'static str = "job";
    const FUNCTIONS: &'static [Function] = &[("hybit_peak_job", &[25])];

    fn examples() -> Vec<(Self, Answer)> {
        examples::examples()
    }

    fn fixed(run: &mut dyn FnMut(Self)) {
        fixed::run(run);
    }

    fn random(rng: &mut Rng) -> Self {
        random::random(rng)
    }

    /// Jobs are recorded in a way of their own.
    fn unrecorded() -> Vec<Self> {
        fixed::few()
    }
}

impl GroupCall for Call {
    fn place(&self) -> usize {
        0
    }

    fn parts(&mut self) -> Parts<'_> {
        Parts::new()
            .read("input", U8(&mut self.input))
            .written("out", U8(&mut self.out))
    }

    fn ask_port(&mut self) -> Answer {
        port!(hybit_peak_job([self.input], [self.out])).into()
    }

    fn expect(&mut self) -> Result<Answer, Answer> {
        expected::answer(self)
    }
}
