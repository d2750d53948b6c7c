//! The job on bytes.

use crate::lend::ask;

/// More than any answer's text has: at most 256 members twice, 257 pointers and 1,023 columns, each of at most four
/// digits and a comma, and the names of five lines.
const LONGEST: usize = 16_384;

/// What the job program writes on this text: the five lines of a region, or the line `refused=` and a number.
pub fn peak_job(input: &[u8]) -> Vec<u8> {
    let mut text = vec![0; LONGEST];
    let answer = ask!(hybit_peak_job(input, &mut text));
    let length = answer
        .expect("a job is refused only where its answer has no room")
        .value;
    text.truncate(length as usize);
    text
}
