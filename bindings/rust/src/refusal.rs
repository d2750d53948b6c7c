//! What a call is refused by.

use std::error::Error;
use std::fmt;

use crate::calls;

/// Document 01's conditions by their numbers, in its words without its notes of what the Rust lacks.
const CONDITIONS: [&str; 27] = [
    "side, mask length, node count or layout total over 1,048,576; either entry list, a topology's words or pairs, or sources over 16,777,216; regions over 65,536",
    "row_ptr length is not nrows + 1",
    "col_idx and values lengths differ",
    "row_ptr does not start at 0",
    "last row_ptr is not the entry count",
    "row_ptr falls",
    "column not below ncols",
    "any value not finite",
    "a topology fails `AbtmTopology::validate` or `AbtmDualTopology::validate`, or its columns are not the transpose of its rows",
    "topology not square",
    "a mask, owner list, value list or block list has the wrong length",
    "a bit at or past the length",
    "index or rank offset out of range",
    "layout has no block",
    "block with 0 components",
    "entity kind, id and field id all repeat",
    "kind byte is not 1 to 6 or 255",
    "layout total is not both sides",
    "ranks is 0",
    "a block's first owner is not below ranks",
    "owners differ inside a block",
    "topology and matrix sides differ",
    "a topology pair inside the region has no entry",
    "an entry inside the region is missing from the topology",
    "a lent list is shorter than needed",
    "a plan's pointers are empty, do not start at 0, fall, or do not end at the source count, or a source is not below the value count; a layout's offset list, length included, is not its running totals",
    "malformed job text",
];

/// Document 01's number of a refusal and its two figures, which are 0 but for 11.
#[derive(Clone, Copy, Debug, PartialEq, Eq)]
#[non_exhaustive]
pub struct Refusal {
    pub number: u32,
    pub expected: u64,
    pub actual: u64,
}

impl Refusal {
    /// Of a row, which the typed layer looks for itself.
    pub(crate) fn out_of_range() -> Self {
        Self {
            number: 13,
            expected: 0,
            actual: 0,
        }
    }

    /// Document 01's condition of this number.
    pub fn sentence(&self) -> &'static str {
        let place = (self.number as usize).wrapping_sub(1);
        CONDITIONS
            .get(place)
            .copied()
            .unwrap_or("no refusal has this number")
    }
}

impl fmt::Display for Refusal {
    fn fmt(&self, f: &mut fmt::Formatter<'_>) -> fmt::Result {
        write!(f, "refused by {}: {}", self.number, self.sentence())?;
        match self.number {
            11 => write!(f, " (expected {}, actual {})", self.expected, self.actual),
            _ => Ok(()),
        }
    }
}

impl Error for Refusal {}

/// A flat record of the port, which says in its first fields whether the call was refused.
pub(crate) trait Record: Sized {
    fn accepted(self) -> Result<Self, Refusal>;
}

macro_rules! records {
    ($($record:ident)*) => {
        $(impl Record for calls::$record {
            fn accepted(self) -> Result<Self, Refusal> {
                match self.number {
                    0 => Ok(self),
                    number => Err(Refusal {
                        number,
                        expected: self.expected,
                        actual: self.actual,
                    }),
                }
            }
        })*
    };
}

records! {
    Answer PairAnswer TopologyStatsAnswer DualStatsAnswer BuildAnswer GrowthAnswer FieldGrowthAnswer
    MultiplicityAnswer PatternAnswer PlanAnswer PreparedAnswer
}
