//! What all groups share in saying what a call is expected to answer.
//!
//! Document 01 adds refusals that the Rust lacks; these are decided in each
//! group's module `expected`, in 01's order, by code written from 01's words.
//! All else is asked of the original Rust. Where an added refusal comes first
//! the Rust is not asked: it would answer something else there, panic or abort
//! (the program `edges` shows what it does). Where one comes after the Rust's
//! own checks, the Rust works on a copy, and the lent lists are written only at
//! the very end.

use hybit_core::HybitError;

use crate::answer::Answer;

/// 01: "side, mask length, node count or layout total over 1,048,576".
pub const SIDE_LIMIT: usize = 1_048_576;

/// 01: "either entry list, a topology's words or pairs [..] over 16,777,216".
pub const ENTRY_LIMIT: usize = 16_777_216;

/// 01: "regions over 65,536".
pub const REGION_LIMIT: usize = 65_536;

/// 01 takes the Rust on a 64-bit machine as the reference.
const _: () = assert!(usize::BITS == 64);

/// The number that 01 gives to an error of the Rust.
const NUMBERS: [(&str, u32); 25] = [
    ("row_ptr length must equal nrows + 1", 2),
    ("col_idx and values lengths differ", 3),
    ("row_ptr[0] must be zero", 4),
    ("row_ptr[nrows] must equal nnz", 5),
    ("row_ptr must be monotonically nondecreasing", 6),
    ("column index out of range", 7),
    ("matrix contains NaN or infinity", 8),
    ("ABTM region growth requires a square topology", 10),
    ("DOF mask index out of range", 13),
    ("ABTM topology rank offset out of range", 13),
    ("DOF layout requires at least one block", 14),
    ("DOF block component count must be positive", 15),
    ("duplicate DOF entity/field block", 16),
    ("unknown DOF entity kind", 17),
    ("square matrix dimensions disagree with DOF layout", 18),
    ("MPI rank count must be positive", 19),
    ("DOF owner rank out of range", 20),
    ("MPI ownership splits a physical field block", 21),
    ("ABTM topology row index out of range", 13),
    ("ABTM topology row rank column out of range", 13),
    ("ABTM topology dimensions differ", 22),
    (
        "ABTM local submatrix extraction requires a square topology",
        10,
    ),
    (
        "ABTM local numeric plan topology/matrix dimensions differ",
        22,
    ),
    (
        "ABTM local numeric plan could not bind a structural entry",
        23,
    ),
    (
        "CSR local structure contains entries absent from ABTM topology",
        24,
    ),
];

/// The errors of 9: those of `AbtmTopology::validate` and the two that
/// `AbtmDualTopology::validate` has of its own, in the order of their tests.
pub const TOPOLOGY_FAULTS: [&str; 12] = [
    "ABTM topology row pointer length is invalid",
    "ABTM topology row pointer must start at zero",
    "ABTM topology word/mask lengths differ",
    "ABTM topology row pointer terminal offset is invalid",
    "ABTM topology row pointer is not monotone",
    "ABTM topology stores an empty word",
    "ABTM topology row words are not strictly increasing",
    "ABTM topology word starts beyond matrix columns",
    "ABTM topology has bits beyond matrix columns",
    "ABTM topology structural nnz is inconsistent",
    "ABTM dual topology transpose dimensions are inconsistent",
    "ABTM dual topology transpose nnz is inconsistent",
];

pub fn refusal(error: HybitError) -> Answer {
    let text = match error {
        HybitError::DimensionMismatch { expected, actual } => {
            return Answer::wrong_length(expected, actual);
        }
        HybitError::InvalidMatrix(text) | HybitError::InvalidArgument(text) => text,
        HybitError::MissingDiagonal { .. } | HybitError::SizeOverflow => {
            panic!("01 has no number for {error:?}")
        }
    };
    if TOPOLOGY_FAULTS.contains(&text) {
        return Answer::refused(9);
    }
    match NUMBERS.iter().find(|(known, _)| *known == text) {
        Some(&(_, number)) => Answer::refused(number),
        None => panic!("01 has no number for {text:?}"),
    }
}

/// Added refusal 25, else the answer over the front of the output list.
pub fn write<T: Copy>(answer: &[T], out: &mut [T]) -> Result<(), Answer> {
    match out.get_mut(..answer.len()) {
        Some(front) => {
            front.copy_from_slice(answer);
            Ok(())
        }
        None => Err(Answer::refused(25)),
    }
}
