//! Words, matrices, masks, jobs.

use hybit_matrix::{ABTM_TOPOLOGY_WORD_BITS, AbtmTopologyWord, DofMask, Refusal, peak_job};

use super::Answered::{U8, U64};
use super::{Case, Compared, End, numbers, refused};
use crate::answer::Answer;
use crate::groups::word::Word;
use crate::groups::{csr32, job, mask, word};

pub fn word(call: &word::Call, case: &Case) -> Compared {
    use word::Call;
    let own = |word: &Word| AbtmTopologyWord::new(word.word_index, word.mask);
    let answer = match call {
        Call::Bits => numbers(&[ABTM_TOPOLOGY_WORD_BITS]),
        Call::Index(word) => Answer::told(own(word).word_index().into()),
        Call::BaseCol(word) => numbers(&[own(word).base_col()]),
        Call::Mask(word) => Answer::told(own(word).mask()),
        Call::Popcount(word) => numbers(&[own(word).popcount()]),
        Call::ContainsOffset(word, offset) => {
            Answer::told(own(word).contains_offset(*offset as usize).into())
        }
        Call::Rank(word, offset) => numbers(&[case.accepted(own(word).rank(*offset as usize))?]),
        Call::Select(word, ordinal) => match own(word).select(*ordinal as usize) {
            Some(bit) => numbers(&[bit]),
            None => Answer::none(),
        },
    };
    case.told(answer, &[])
}

pub fn csr32(call: &csr32::Call, case: &Case) -> Compared {
    let csr32::Call::Validate(matrix) = call;
    let matrix = case.matrix(matrix)?;
    case.accepted(matrix.validate())?;
    case.told(Answer::done(), &[])
}

pub fn job(call: &job::Call, case: &Case) -> Compared {
    let text = peak_job(&call.input);
    case.told(numbers(&[text.len()]), &[U8(&text)])
}

pub fn mask(call: &mask::Call, case: &Case) -> Compared {
    use mask::Call;
    match call {
        Call::New { len, .. } => made(case, DofMask::new(*len)),
        Call::FromIndices { len, indices, .. } => {
            let indices: Vec<usize> = indices.iter().map(|&index| index as usize).collect();
            made(case, DofMask::from_indices(*len, &indices))
        }
        Call::Set { mask, index, value } => {
            changed(case, mask, |own| own.set(*index as usize, *value))
        }
        Call::UnionAssign(mask, other) => assigned(case, mask, other, DofMask::union_assign),
        Call::IntersectAssign(mask, other) => {
            assigned(case, mask, other, DofMask::intersect_assign)
        }
        Call::AndNotAssign(mask, other) => assigned(case, mask, other, DofMask::and_not_assign),
        Call::OrWord {
            mask,
            word_index,
            bits,
        } => changed(case, mask, |own| {
            own.or_word(*word_index as usize, *bits);
            Ok(())
        }),
        Call::Indices { mask, .. } => {
            let indices = case.mask(mask)?.indices();
            let indices: Vec<u64> = indices.into_iter().map(|index| index as u64).collect();
            case.told(numbers(&[indices.len()]), &[U64(&indices)])
        }
        _ => case.told(asked(call, case)?, &[]),
    }
}

/// Of questions that write no list.
fn asked(call: &mask::Call, case: &Case) -> Result<Answer, End> {
    use mask::Call;
    Ok(match call {
        Call::Check(mask) => {
            case.mask(mask)?;
            Answer::done()
        }
        Call::IsEmpty(mask) => Answer::told(case.mask(mask)?.is_empty().into()),
        Call::CountOnes(mask) => numbers(&[case.mask(mask)?.count_ones()]),
        Call::Contains { mask, index } => {
            Answer::told(case.mask(mask)?.contains(*index as usize).into())
        }
        Call::Intersects(mask, other) => {
            let (mask, other) = (case.mask(mask)?, case.mask(other)?);
            Answer::told(case.accepted(mask.intersects(&other))?.into())
        }
        _ => unreachable!("a question"),
    })
}

fn made(case: &Case, made: Result<DofMask, Refusal>) -> Compared {
    let made = case.accepted(made)?;
    case.told(Answer::done(), &[U64(made.words())])
}

/// The mask is compared after a refusal too: it must be as it was.
fn changed(
    case: &Case,
    mask: &mask::Mask,
    change: impl FnOnce(&mut DofMask) -> Result<(), Refusal>,
) -> Compared {
    let mut mask = case.mask(mask)?;
    let answer = change(&mut mask).map_or_else(refused, |()| Answer::done());
    case.told(answer, &[U64(mask.words())])
}

fn assigned(
    case: &Case,
    mask: &mask::Mask,
    other: &mask::Mask,
    work: fn(&mut DofMask, &DofMask) -> Result<(), Refusal>,
) -> Compared {
    // The first mask is made before the second: 01's order.
    case.mask(mask)?;
    let other = case.mask(other)?;
    changed(case, mask, |own| work(own, &other))
}
