//! The typed layer (bindings/rust), asked with what a call is handed.
//!
//! Each part is made by its constructor, in 01's order. A part may be refused
//! only as the check of that part is expected to refuse it. If all are made the
//! typed function must answer as the call is expected to: the same refusal or
//! the same values, and in the front of each written list its own list. It
//! allocates, so where 25 is expected it must not refuse.

mod layouts;
mod local;
mod prepared;
mod regions;
mod runs;
mod single;
mod topologies;

use hybit_matrix::{
    AbtmDualTopology, AbtmTopology, Csr32Matrix, DofMask, FieldAwareDofLayout, Refusal,
};

use crate::answer::Answer;
use crate::compare::Outcome;
use crate::groups::Call;
use crate::groups::csr32::{Matrix, accepted};
use crate::groups::layout::{Layout, accepted_layout};
use crate::groups::mask::{Mask, check_mask};
use crate::groups::topology::{Side, Topology, accepted_side, accepted_topology};
use crate::parts::List;

/// A report if the typed layer answers otherwise.
pub fn difference(call: &Call, expected: &Outcome) -> Option<String> {
    let case = Case { expected };
    let compared = match call {
        Call::Word(call) => single::word(call, &case),
        Call::Csr32(call) => single::csr32(call, &case),
        Call::Mask(call) => single::mask(call, &case),
        Call::Layout(call) => layouts::compare(call, &case),
        Call::Topology(call) => topologies::compare(call, &case),
        Call::Growth(call) => regions::compare(call, &case),
        Call::Local(call) => local::compare(call, &case),
        Call::Prepared(call) => prepared::compare(call, &case),
        Call::Job(call) => single::job(call, &case),
    };
    match compared {
        Ok(()) | Err(End::Refused) => None,
        Err(End::Differs(how)) => Some(format!("TYPED LAYER: {how}\n{}", shown(call))),
    }
}

fn shown(call: &Call) -> String {
    let (function, _) = call.function();
    let mut call = call.clone();
    let parts = call.inner_mut().parts();
    format!("{function}\n{}{}", parts.show_numbers(), parts.show_lists())
}

/// What ends a comparison early.
enum End {
    /// A refusal, as expected.
    Refused,
    Differs(String),
}

type Compared = Result<(), End>;

/// A list of the typed layer's answer.
enum Answered<'a> {
    Nothing,
    U8(&'a [u8]),
    U32(&'a [u32]),
    U64(&'a [u64]),
    F64(&'a [f64]),
}

impl Answered<'_> {
    fn is_front_of(&self, list: &List) -> bool {
        match (self, list) {
            (Self::Nothing, _) => true,
            (Self::U8(own), List::U8(list)) => list.starts_with(own),
            (Self::U32(own), List::U32(list)) => list.starts_with(own),
            (Self::U64(own), List::U64(list)) => list.starts_with(own),
            (Self::F64(own), List::F64(list)) => {
                let pairs = own.iter().zip(list.iter());
                own.len() <= list.len()
                    && pairs.into_iter().all(|(a, b)| a.to_bits() == b.to_bits())
            }
            _ => false,
        }
    }
}

fn refused(refusal: Refusal) -> Answer {
    Answer {
        expected: refusal.expected,
        actual: refusal.actual,
        ..Answer::refused(refusal.number)
    }
}

fn numbers(values: &[usize]) -> Answer {
    let values: Vec<u64> = values.iter().map(|&value| value as u64).collect();
    Answer::told_all(&values)
}

fn differs(expected: Answer, got: Answer) -> End {
    End::Differs(format!("expected {expected:?}, got {got:?}"))
}

fn demand(holds: bool, what: &str) -> Compared {
    match holds {
        true => Ok(()),
        false => Err(End::Differs(what.to_string())),
    }
}

struct Case<'a> {
    expected: &'a Outcome,
}

impl Case<'_> {
    /// A part, whose own check is asked for where it can have refused.
    fn part<T>(
        &self,
        made: Result<T, Refusal>,
        check: impl FnOnce() -> Result<(), Answer>,
    ) -> Result<T, End> {
        let checked = match self.expected.answer.number {
            0 => Ok(()),
            _ => check(),
        };
        match (made, checked) {
            (Ok(part), Ok(())) => Ok(part),
            (Err(refusal), Err(answer)) if refused(refusal) == answer => Err(End::Refused),
            (made, checked) => Err(differs(
                checked.err().unwrap_or(Answer::done()),
                made.err().map_or(Answer::done(), refused),
            )),
        }
    }

    /// What the typed function gives, once all parts are made; `told` sees to
    /// it that it was to be accepted.
    fn accepted<T>(&self, made: Result<T, Refusal>) -> Result<T, End> {
        let expected = self.expected.answer;
        made.map_err(
            |refusal| match refused(refusal) == expected && expected.number != 25 {
                true => End::Refused,
                false => differs(expected, refused(refusal)),
            },
        )
    }

    /// The values, and the lists in the order of those that the call writes.
    fn told(&self, answer: Answer, lists: &[Answered]) -> Compared {
        let expected = self.expected.answer;
        if expected.number == 25 {
            return Ok(());
        }
        if answer != expected {
            return Err(differs(expected, answer));
        }
        self.written(lists)
    }

    fn written(&self, lists: &[Answered]) -> Compared {
        if lists.is_empty() {
            return Ok(());
        }
        let mut after = self.expected.after.clone();
        let parts = after.inner_mut().parts();
        for (own, &place) in lists.iter().zip(&parts.written) {
            let (name, list) = &parts.lists[place];
            demand(own.is_front_of(list), name)?;
        }
        Ok(())
    }

    fn matrix(&self, matrix: &Matrix) -> Result<Csr32Matrix, End> {
        let made = Csr32Matrix::new(
            matrix.nrows,
            matrix.ncols,
            matrix.row_ptr.clone(),
            matrix.col_idx.clone(),
            matrix.values.clone(),
        );
        self.part(made, || accepted(matrix).map(drop))
    }

    fn mask(&self, mask: &Mask) -> Result<DofMask, End> {
        let made = DofMask::from_words(mask.len, mask.words.clone());
        self.part(made, || check_mask(mask))
    }

    fn layout(&self, layout: &Layout) -> Result<FieldAwareDofLayout, End> {
        let blocks = layout.blocks.clone();
        let made = FieldAwareDofLayout::from_parts(
            blocks.kinds,
            blocks.ids,
            blocks.fields,
            blocks.components,
            layout.offsets.clone(),
        );
        self.part(made, || accepted_layout(layout).map(drop))
    }

    fn side(&self, side: &Side) -> Result<AbtmTopology, End> {
        let made = AbtmTopology::from_parts(
            side.nrows,
            side.ncols,
            side.row_word_ptr.clone(),
            side.word_indices.clone(),
            side.masks.clone(),
            side.structural_nnz,
        );
        self.part(made, || accepted_side(side).map(drop))
    }

    fn topology(&self, topology: &Topology) -> Result<AbtmDualTopology, End> {
        let rows = self.side(&topology.rows)?;
        let columns = self.side(&topology.columns)?;
        let made = AbtmDualTopology::from_sides(rows, columns);
        self.part(made, || accepted_topology(topology).map(drop))
    }
}
