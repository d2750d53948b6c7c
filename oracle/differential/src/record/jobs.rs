//! Recorded jobs: texts of any length, each behind its length in 8 bytes, and
//! the texts that they are answered with, one after the other.

use std::fs;
use std::io;
use std::path::Path;

use crate::groups::{job_answer, recorded_jobs};

pub fn write(folder: &Path) -> io::Result<()> {
    let mut stdin = vec![];
    let mut stdout = vec![];
    let texts = recorded_jobs();
    for text in &texts {
        stdin.extend((text.len() as u64).to_le_bytes());
        stdin.extend(text);
        stdout.extend(job_answer(text));
    }
    println!(
        "record: {} jobs, {} bytes in, {} out",
        texts.len(),
        stdin.len(),
        stdout.len()
    );
    fs::create_dir_all(folder)?;
    fs::write(folder.join("stdin"), stdin)?;
    fs::write(folder.join("stdout"), stdout)
}
