//! Recorded answers: calls of fixed size on `stdin`, and on `stdout` what is
//! expected of each. They are written without asking the port.

mod format;
pub mod jobs;
mod shares;

use std::collections::BTreeMap;
use std::fs;
use std::io;
use std::path::Path;

use crate::compare::expected;
use crate::groups::{Call, GROUPS};
use crate::rng::Rng;
pub use format::{FORMATS, Format};
use shares::Shares;

/// So many random calls of each group are there to choose from.
const RANDOM: usize = 40_000;

/// The calls that are recorded in any format, and some that none has room for.
pub fn all_calls() -> Vec<Call> {
    let unrecorded = GROUPS.iter().flat_map(|group| (group.unrecorded)());
    FORMATS.iter().flat_map(calls).chain(unrecorded).collect()
}

/// 01's examples, edges, then random ones, until each kind has its share.
fn calls(format: &Format) -> Vec<Call> {
    let groups = format.groups();
    let mut shares = Shares::new(format);
    for group in &groups {
        for (call, _) in (group.examples)() {
            shares.offer(call);
        }
        (group.edges)(&mut |call| shares.offer(call));
    }
    let mut rng = Rng::new(format.seed);
    for _ in 0..RANDOM {
        for group in &groups {
            shares.offer((group.random)(&mut rng));
        }
    }
    shares.taken()
}

pub fn write(format: &Format, folder: &Path) -> io::Result<()> {
    let mut stdin = vec![];
    let mut stdout = vec![];
    let mut counts = BTreeMap::new();
    let mut calls = calls(format);
    for call in &mut calls {
        let mut outcome = expected(call);
        stdin.extend(format.call_bytes(call));
        stdout.extend(format.answer_bytes(&mut outcome));
        let (function, _) = call.function();
        let kind = (format.code(call), function, outcome.answer.number);
        *counts.entry(kind).or_insert(0) += 1;
    }
    fs::create_dir_all(folder)?;
    fs::write(folder.join("stdin"), stdin)?;
    fs::write(folder.join("stdout"), stdout)?;
    for ((_, function, number), count) in counts {
        println!("{function}  number {number}: {count}");
    }
    println!("record: {} calls", calls.len());
    Ok(())
}
