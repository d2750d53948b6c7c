//! A job's text, read by 01's words: "at most 16,384 bytes (more is 27) of
//! key=value lines in this order: size, blocks, ptr, cols, seeds, hops".

use crate::answer::Answer;

/// 01: "at most 16,384 bytes".
pub const MOST_BYTES: usize = 16_384;

const KEYS: [&str; 6] = ["size=", "blocks=", "ptr=", "cols=", "seeds=", "hops="];

/// What a text says.
#[derive(Clone, Debug, PartialEq)]
pub struct Job {
    pub size: u64,
    pub blocks: Vec<u32>,
    pub ptr: Vec<u32>,
    pub cols: Vec<u32>,
    pub seeds: Vec<u64>,
    pub hops: u64,
}

/// The job, or 27.
pub fn read(text: &[u8]) -> Result<Job, Answer> {
    parsed(text).ok_or(Answer::refused(27))
}

fn parsed(text: &[u8]) -> Option<Job> {
    if text.len() > MOST_BYTES {
        return None;
    }
    let [size, blocks, ptr, cols, seeds, hops] = values(text)?;
    Some(Job {
        size: number(size)?,
        blocks: narrow_list(blocks)?,
        ptr: narrow_list(ptr)?,
        cols: narrow_list(cols)?,
        seeds: list(seeds)?,
        hops: number(hops)?,
    })
}

/// The values of the six lines. "Each line ends in a newline": what stands past
/// the last one is empty.
fn values(text: &[u8]) -> Option<[&[u8]; 6]> {
    let lines: Vec<&[u8]> = text.split(|&byte| byte == b'\n').collect();
    let (past, lines) = lines.split_last()?;
    if !past.is_empty() || lines.len() != KEYS.len() {
        return None;
    }
    let pairs = lines.iter().zip(KEYS);
    let values: Option<Vec<&[u8]>> = pairs
        .map(|(line, key)| line.strip_prefix(key.as_bytes()))
        .collect();
    values?.try_into().ok()
}

/// "Lists use commas; an empty list is an empty value."
fn list(value: &[u8]) -> Option<Vec<u64>> {
    if value.is_empty() {
        return Some(vec![]);
    }
    value.split(|&byte| byte == b',').map(number).collect()
}

/// "Size, seeds and hops have 64 bits, the others 32; a larger number is 27."
fn narrow_list(value: &[u8]) -> Option<Vec<u32>> {
    let wide = list(value)?.into_iter();
    wide.map(|number| number.try_into().ok()).collect()
}

/// Digits alone, at least one of them, no zero before others, at most 64 bits.
fn number(digits: &[u8]) -> Option<u64> {
    let leading_zero = digits.len() > 1 && digits[0] == b'0';
    if leading_zero || !digits.iter().all(u8::is_ascii_digit) {
        return None;
    }
    str::from_utf8(digits).ok()?.parse().ok()
}
