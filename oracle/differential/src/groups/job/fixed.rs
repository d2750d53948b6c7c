//! Fixed texts, and the demand that they meet every number a job can get.

use std::collections::BTreeMap;

use super::cases::{exact, in_rooms};
use super::{Call, damaged, edges, examples, expected};
use crate::compare::fail;
use crate::rng::Rng;

/// All that a job can get: of limits, matrix, seeds, layout and text; 0 is an
/// accepted job.
const NUMBERS: [u32; 12] = [0, 1, 2, 4, 5, 6, 7, 13, 14, 15, 18, 27];

pub fn run(run: &mut dyn FnMut(Call)) {
    let mut met = BTreeMap::new();
    let mut rng = Rng::new(41);
    let all = [
        edges::short(),
        edges::lists(),
        edges::longest(),
        damaged::short(),
        edges::large(&mut rng, 3_000),
    ];
    for text in all.iter().flatten() {
        note(&mut met, text);
        in_rooms(text, run);
    }
    let mut edited = |text: &[u8]| {
        note(&mut met, text);
        run(exact(text));
    };
    damaged::edits(&mut edited);
    damaged::all_edits(&mut edited);
    demand_every_number(&met);
}

fn note(met: &mut BTreeMap<u32, u64>, text: &[u8]) {
    *met.entry(expected::number(text)).or_default() += 1;
}

/// Ends the program if no text gets one of the numbers: then the texts are too
/// weak.
pub fn demand_every_number(met: &BTreeMap<u32, u64>) {
    for number in NUMBERS {
        if !met.contains_key(&number) {
            fail(&format!("no job with number {number}"));
        }
    }
    let shown: Vec<String> = met
        .iter()
        .map(|(number, count)| format!("{number}: {count}"))
        .collect();
    println!("jobs by number  {}", shown.join(", "));
}

/// 01's examples and other short texts, in lists of just the needed length,
/// longer and too short.
pub fn few() -> Vec<Call> {
    let mut all: Vec<Call> = examples::examples()
        .into_iter()
        .map(|(call, _)| call)
        .collect();
    let texts = [edges::short(), damaged::short()].concat();
    for text in texts.iter().filter(|text| text.len() < 100).step_by(23) {
        in_rooms(text, &mut |call| all.push(call));
    }
    all
}
