//! The calls that take a matrix and its layout: a region prepared from them in
//! one call, with the gather of its values, and the owners of their blocks.

mod cases;
mod examples;
mod expected;
mod faults;
mod fixed;
mod limits;
mod orders;
mod owners;
mod port;
mod random;
mod rooms;
mod small;

pub use expected::prepared;

use super::csr32::Matrix;
use super::growth::{Lent as Masks, layout_of, seeds_of};
use super::layout::Layout;
use super::local::PlanLent;
use super::mask::Mask;
use super::topology::BothLent;
use super::{Function, GroupCall, GroupCalls};
use crate::answer::Answer;
use crate::parts::List::{U32, U64};
use crate::parts::Parts;
use crate::rng::Rng;

/// The lists of all steps: both sides and their scratch, three masks, a plan.
#[derive(Clone, PartialEq)]
pub struct Lent {
    pub sides: BothLent,
    pub masks: Masks,
    pub plan: PlanLent,
}

#[derive(Clone, PartialEq)]
pub struct Prepare {
    pub matrix: Matrix,
    pub layout: Layout,
    pub seeds: Mask,
    pub hops: u64,
    pub lent: Lent,
    /// The matrix's values, gathered by the plan that the call has left; by
    /// their bits.
    pub gathered: Vec<u64>,
    /// The number and the value that the gather answered with; none where there
    /// was no plan.
    pub gather_told: Vec<u64>,
}

#[derive(Clone, PartialEq)]
pub struct Owners {
    pub matrix: Matrix,
    pub layout: Layout,
    pub dof_owners: Vec<u32>,
    pub ranks: u32,
    pub out: Vec<u32>,
}

#[derive(Clone, PartialEq)]
pub enum Call {
    Prepare(Box<Prepare>),
    Owners(Box<Owners>),
}

impl GroupCalls for Call {
    const NAME: &'static str = "prepared";
    const FUNCTIONS: &'static [Function] = &[
        (
            "hybit_prepare_region",
            &[1, 2, 3, 4, 5, 6, 7, 8, 11, 12, 14, 15, 16, 17, 18, 25, 26],
        ),
        (
            "hybit_validate_block_owners",
            &[
                1, 2, 3, 4, 5, 6, 7, 8, 11, 14, 15, 16, 17, 18, 19, 20, 21, 25, 26,
            ],
        ),
    ];

    fn examples() -> Vec<(Self, Answer)> {
        examples::examples()
    }

    fn fixed(run: &mut dyn FnMut(Self)) {
        small::run(run);
        fixed::run(run);
        owners::run(run);
        faults::run(run);
        orders::run(run);
        limits::run(run);
    }

    fn random(rng: &mut Rng) -> Self {
        random::random(rng)
    }

    /// No record holds these calls: 01's examples, and one with each fault.
    fn unrecorded() -> Vec<Self> {
        let examples = examples::examples().into_iter().map(|(call, _)| call);
        let mut all: Vec<Self> = examples.collect();
        faults::few(&mut |call| all.push(call));
        all.retain_mut(|call| call.parts().longest() < 100);
        all
    }
}

impl GroupCall for Call {
    fn place(&self) -> usize {
        match self {
            Call::Prepare(..) => 0,
            Call::Owners(..) => 1,
        }
    }

    /// Numbers and lists in the order of the function's own parameters, then
    /// the gather.
    fn parts(&mut self) -> Parts<'_> {
        match self {
            Call::Prepare(call) => {
                let parts = layout_of(&mut call.layout, call.matrix.parts());
                let parts = seeds_of(&mut call.seeds, parts).number("hops", call.hops);
                call.lent
                    .add_to(parts)
                    .written("gathered (bits)", U64(&mut call.gathered))
                    .written("gather told", U64(&mut call.gather_told))
            }
            Call::Owners(call) => layout_of(&mut call.layout, call.matrix.parts())
                .read("dof_owners", U32(&mut call.dof_owners))
                .number("ranks", u64::from(call.ranks))
                .written("out", U32(&mut call.out)),
        }
    }

    fn ask_port(&mut self) -> Answer {
        port::answer(self)
    }

    fn expect(&mut self) -> Result<Answer, Answer> {
        expected::answer(self)
    }
}

impl Lent {
    fn add_to<'call>(&'call mut self, parts: Parts<'call>) -> Parts<'call> {
        let parts = self.sides.add_to(parts);
        self.plan.add_to(self.masks.add_to(parts))
    }
}
