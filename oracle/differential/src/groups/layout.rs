//! The calls on layouts.

mod cases;
mod examples;
mod expected;
mod fixed;
pub mod offsets;
mod orders;
mod port;
mod questions;
mod random;
mod small;

pub use cases::{Block, built, numbered};
pub use expected::accepted_layout;
pub use random::{damage_blocks, damage_offsets, plant_fault};

use super::{Function, GroupCall, GroupCalls};
use crate::answer::Answer;
use crate::parts::List::{U8, U32, U64};
use crate::parts::Parts;
use crate::rng::Rng;

/// The four lists of a layout, one element of each for every block.
#[derive(Clone, PartialEq)]
pub struct Blocks {
    pub kinds: Vec<u8>,
    pub ids: Vec<u64>,
    pub fields: Vec<u32>,
    pub components: Vec<u32>,
}

#[derive(Clone, PartialEq)]
pub struct Layout {
    pub blocks: Blocks,
    pub offsets: Vec<u64>,
}

#[derive(Clone, PartialEq)]
pub enum Call {
    KindOf(u32),
    New { blocks: Blocks, out: Vec<u64> },
    Asked(Layout, Question),
}

/// What is asked of a layout once it is built.
#[derive(Clone, PartialEq)]
pub enum Question {
    Check,
    TotalDofs,
    BlockRange(u64),
    Locate(u64),
    ValidateSquareMatrixSize { nrows: usize, ncols: usize },
    FieldMask { field_id: u32, out: Vec<u64> },
}

impl GroupCalls for Call {
    const NAME: &'static str = "layout";
    const FUNCTIONS: &'static [Function] = &[
        ("hybit_kind_of", &[17]),
        ("hybit_layout_new", &[1, 11, 14, 15, 16, 17, 25]),
        ("hybit_layout_check", &[1, 11, 14, 15, 16, 17, 26]),
        ("hybit_layout_total_dofs", &[1, 11, 14, 15, 16, 17, 26]),
        ("hybit_layout_block_range", &[1, 11, 14, 15, 16, 17, 26]),
        ("hybit_layout_locate", &[1, 11, 14, 15, 16, 17, 26]),
        (
            "hybit_layout_validate_square_matrix_size",
            &[1, 11, 14, 15, 16, 17, 18, 26],
        ),
        ("hybit_layout_field_mask", &[1, 11, 14, 15, 16, 17, 25, 26]),
    ];

    fn examples() -> Vec<(Self, Answer)> {
        examples::examples()
    }

    fn fixed(run: &mut dyn FnMut(Self)) {
        small::run(run);
        fixed::run(run);
    }

    fn random(rng: &mut Rng) -> Self {
        random::random(rng)
    }

    fn edges(offer: &mut dyn FnMut(Self)) {
        cases::edges(offer);
    }
}

impl GroupCall for Call {
    fn place(&self) -> usize {
        match self {
            Call::KindOf(..) => 0,
            Call::New { .. } => 1,
            Call::Asked(_, Question::Check) => 2,
            Call::Asked(_, Question::TotalDofs) => 3,
            Call::Asked(_, Question::BlockRange(..)) => 4,
            Call::Asked(_, Question::Locate(..)) => 5,
            Call::Asked(_, Question::ValidateSquareMatrixSize { .. }) => 6,
            Call::Asked(_, Question::FieldMask { .. }) => 7,
        }
    }

    fn parts(&mut self) -> Parts<'_> {
        match self {
            Call::KindOf(code) => Parts::new().number("code", u64::from(*code)),
            // The written list is always the sixth, so a layout that is still
            // to be built has an empty list of offsets here.
            Call::New { blocks, out } => blocks
                .parts()
                .read("offsets", U64(&mut []))
                .written("out", U64(out)),
            Call::Asked(Layout { blocks, offsets }, question) => {
                question.add_to(blocks.parts().read("offsets", U64(offsets)))
            }
        }
    }

    fn ask_port(&mut self) -> Answer {
        port::answer(self)
    }

    fn expect(&mut self) -> Result<Answer, Answer> {
        expected::answer(self)
    }

    /// Of a block list's length (11) which list, of offsets (26) their length
    /// or their elements.
    fn told_apart(&self, answer: Answer) -> u64 {
        match (self, answer.number) {
            (Call::New { blocks, .. } | Call::Asked(Layout { blocks, .. }, _), 11) => {
                blocks.right_lists()
            }
            (Call::Asked(Layout { blocks, offsets }, _), 26) => {
                u64::from(offsets.len() == blocks.kinds.len() + 1)
            }
            _ => answer.none_zero_or_more(),
        }
    }
}

impl Blocks {
    fn parts(&mut self) -> Parts<'_> {
        Parts::new()
            .read("kinds", U8(&mut self.kinds))
            .read("ids", U64(&mut self.ids))
            .read("fields", U32(&mut self.fields))
            .read("components", U32(&mut self.components))
    }

    /// How many of ids, fields and components have the right length before the
    /// first that has not.
    pub fn right_lists(&self) -> u64 {
        let lengths = [self.ids.len(), self.fields.len(), self.components.len()];
        lengths
            .iter()
            .take_while(|&&length| length == self.kinds.len())
            .count() as u64
    }
}

impl Question {
    fn add_to<'call>(&'call mut self, layout: Parts<'call>) -> Parts<'call> {
        match self {
            Question::Check | Question::TotalDofs => layout,
            Question::BlockRange(index) => layout.number("index", *index),
            Question::Locate(dof) => layout.number("dof", *dof),
            Question::ValidateSquareMatrixSize { nrows, ncols } => layout
                .number("nrows", *nrows as u64)
                .number("ncols", *ncols as u64),
            Question::FieldMask { field_id, out } => layout
                .number("field_id", u64::from(*field_id))
                .written("out", U64(out)),
        }
    }
}
