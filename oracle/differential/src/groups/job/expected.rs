//! What a job is expected to answer: 27 over the whole text, then 1 and 13,
//! then what the prepared region's inputs are refused by, else its text.

use hybit_open::DofMask;

use super::Call;
use super::reading::{Job, read};
use crate::answer::Answer;
use crate::expected::{refusal, write};
use crate::groups::csr32::Matrix;
use crate::groups::layout::{Blocks, Layout};
use crate::groups::mask::Mask;
use crate::groups::prepared::prepared;

/// 01: "size over 256 or a longer list (blocks and cols: over 1,023) is 1".
const MOST_SIZE: u64 = 256;
const MOST_NUMBERS: usize = 1_024;

pub fn answer(call: &mut Call) -> Result<Answer, Answer> {
    let text = text(&call.input);
    write(&text, &mut call.out)?;
    Ok(Answer::told(text.len() as u64))
}

/// "On refusal it writes only the line `refused=` and the number."
pub fn text(input: &[u8]) -> Vec<u8> {
    let text = done(input).unwrap_or_else(|refused| format!("refused={}\n", refused.number));
    text.into_bytes()
}

/// The number that a job is refused by, or 0.
pub fn number(input: &[u8]) -> u32 {
    done(input).map_or_else(|refused| refused.number, |_| 0)
}

fn done(input: &[u8]) -> Result<String, Answer> {
    let job = read(input)?;
    check_limits(&job)?;
    let seeds = mask(&job)?;
    let found = prepared(&matrix(&job), &layout(&job), &seeds, job.hops)?;
    let growth = &found.region.growth;
    let pattern = found.region.pattern();
    Ok(format!(
        "region={}\nfrontier={}\ncompleted={}\nlocal_ptr={}\nlocal_cols={}\n",
        joined(growth.region().indices()),
        joined(growth.frontier().indices()),
        growth.stats().hops_completed,
        joined(pattern.row_ptr()),
        joined(pattern.col_idx()),
    ))
}

fn check_limits(job: &Job) -> Result<(), Answer> {
    let over = job.size > MOST_SIZE
        || job.blocks.len() > MOST_NUMBERS - 1
        || job.ptr.len() > MOST_NUMBERS
        || job.cols.len() > MOST_NUMBERS - 1
        || job.seeds.len() > MOST_NUMBERS;
    if over {
        return Err(Answer::refused(1));
    }
    Ok(())
}

/// "A seed not below size is 13", as the Rust's mask says.
fn mask(job: &Job) -> Result<Mask, Answer> {
    let seeds: Vec<usize> = job.seeds.iter().map(|&seed| seed as usize).collect();
    let mask = DofMask::from_indices(job.size as usize, &seeds).map_err(refusal)?;
    Ok(Mask {
        len: mask.len,
        words: mask.words,
    })
}

/// "Both sides are size; every value is 1.0."
fn matrix(job: &Job) -> Matrix {
    Matrix {
        nrows: job.size as usize,
        ncols: job.size as usize,
        row_ptr: job.ptr.clone(),
        col_idx: job.cols.clone(),
        values: vec![1.0; job.cols.len()],
    }
}

/// "Component counts; kind 1, id by position, field 0."
fn layout(job: &Job) -> Layout {
    let count = job.blocks.len();
    Layout::of(Blocks {
        kinds: vec![1; count],
        ids: (0..count as u64).collect(),
        fields: vec![0; count],
        components: job.blocks.clone(),
    })
}

fn joined<T: ToString>(list: impl IntoIterator<Item = T>) -> String {
    let shown: Vec<String> = list.into_iter().map(|number| number.to_string()).collect();
    shown.join(",")
}
