//! What a call on masks is expected to answer.

use hybit_core::HybitError;
use hybit_open::DofMask;
use hybit_original as original;

use super::{Call, Mask};
use crate::answer::Answer;
use crate::expected::{SIDE_LIMIT, refusal, write};

pub fn answer(call: &mut Call) -> Result<Answer, Answer> {
    match call {
        Call::Check(mask) => {
            check_mask(mask)?;
            Ok(Answer::done())
        }
        Call::New { len, out } => new(*len, out),
        Call::FromIndices { len, indices, out } => from_indices(*len, indices, out),
        Call::IsEmpty(mask) => Ok(Answer::told(u64::from(checked(mask)?.is_empty()))),
        Call::CountOnes(mask) => Ok(Answer::told(checked(mask)?.count_ones() as u64)),
        Call::Set { mask, index, value } => set(mask, *index, *value),
        Call::Contains { mask, index } => {
            let yes = checked(mask)?.contains(*index as usize);
            Ok(Answer::told(u64::from(yes)))
        }
        Call::UnionAssign(mask, other) => assign(mask, other, DofMask::union_assign),
        Call::IntersectAssign(mask, other) => assign(mask, other, DofMask::intersect_assign),
        Call::AndNotAssign(mask, other) => assign(mask, other, DofMask::and_not_assign),
        Call::Intersects(mask, other) => intersects(mask, other),
        Call::Indices { mask, out } => indices(mask, out),
        Call::OrWord {
            mask,
            word_index,
            bits,
        } => or_word(mask, *word_index, *bits),
    }
}

fn new(len: usize, out: &mut [u64]) -> Result<Answer, Answer> {
    check_length(len)?;
    let made = original::DofMask::new(len);
    write(made.words(), out)?;
    Ok(Answer::done())
}

fn from_indices(len: usize, indices: &[u64], out: &mut [u64]) -> Result<Answer, Answer> {
    check_length(len)?;
    let indices: Vec<usize> = indices.iter().map(|&index| index as usize).collect();
    let made = original::DofMask::from_indices(len, &indices).map_err(refusal)?;
    write(made.words(), out)?;
    Ok(Answer::done())
}

fn set(mask: &mut Mask, index: u64, value: bool) -> Result<Answer, Answer> {
    let mut copy = checked(mask)?;
    copy.set(index as usize, value).map_err(refusal)?;
    mask.words = copy.words;
    Ok(Answer::done())
}

/// The Rust itself refuses a second mask of another length (11); its word
/// count (11) and its bits past the length (12) are added.
fn assign(
    mask: &mut Mask,
    other: &Mask,
    work: fn(&mut DofMask, &DofMask) -> Result<(), HybitError>,
) -> Result<Answer, Answer> {
    let mut copy = checked(mask)?;
    work(&mut copy, &other.open()).map_err(refusal)?;
    check_words(other)?;
    mask.words = copy.words;
    Ok(Answer::done())
}

fn intersects(mask: &Mask, other: &Mask) -> Result<Answer, Answer> {
    let yes = checked(mask)?.intersects(&other.open()).map_err(refusal)?;
    check_words(other)?;
    Ok(Answer::told(u64::from(yes)))
}

fn indices(mask: &Mask, out: &mut [u64]) -> Result<Answer, Answer> {
    let indices = checked(mask)?.indices();
    let indices: Vec<u64> = indices.iter().map(|&index| index as u64).collect();
    write(&indices, out)?;
    Ok(Answer::told(indices.len() as u64))
}

fn or_word(mask: &mut Mask, word_index: u64, bits: u64) -> Result<Answer, Answer> {
    let mut copy = checked(mask)?;
    copy.or_word(word_index as usize, bits);
    mask.words = copy.words;
    Ok(Answer::done())
}

fn checked(mask: &Mask) -> Result<DofMask, Answer> {
    check_mask(mask)?;
    Ok(mask.open())
}

/// "A call on one mask [..] checks it first (a mask by 1 before 11)".
pub fn check_mask(mask: &Mask) -> Result<(), Answer> {
    check_length(mask.len)?;
    check_words(mask)
}

/// Added refusal 1 of a mask.
fn check_length(len: usize) -> Result<(), Answer> {
    if len > SIDE_LIMIT {
        return Err(Answer::refused(1));
    }
    Ok(())
}

/// "11 for its word count (the length divided by 64, rounded up)", then 12,
/// "a bit at or past the length". Both added: the Rust cannot be handed such a
/// mask.
pub fn check_words(mask: &Mask) -> Result<(), Answer> {
    let needed = words_needed(mask.len);
    if mask.words.len() != needed {
        return Err(Answer::wrong_length(needed, mask.words.len()));
    }
    let past = mask.len..needed * 64;
    for bit in past {
        if mask.words[bit / 64] >> (bit % 64) & 1 == 1 {
            return Err(Answer::refused(12));
        }
    }
    Ok(())
}

pub fn words_needed(len: usize) -> usize {
    len.div_ceil(64)
}

impl Mask {
    /// The original's type, made by hand.
    pub fn open(&self) -> DofMask {
        DofMask {
            len: self.len,
            words: self.words.clone(),
        }
    }
}
