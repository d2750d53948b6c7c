//! The texts that are recorded: each by its length and its bytes.

use std::collections::BTreeMap;

use super::random::random_text;
use super::{damaged, edges, examples, expected, fixed};
use crate::rng::Rng;

/// So many bytes of input in all, and in one text, at most.
const MOST_BYTES: usize = 900_000;
const MOST_TEXT: usize = 16_640;

/// So many texts at least.
const FEWEST: usize = 2_000;

/// 01's examples, edges and damaged texts, few of the long ones, then random
/// ones.
pub fn recorded() -> Vec<Vec<u8>> {
    let mut rng = Rng::new(8);
    let examples = examples::examples().into_iter().map(|(call, _)| call.input);
    let mut all: Vec<Vec<u8>> = examples.collect();
    all.extend(edges::longest());
    all.extend(edges::lists());
    all.extend(edges::large(&mut rng, 25));
    all.extend(edges::short().into_iter().filter(|text| text.len() < 600));
    all.extend(damaged::short());
    all.extend((0..1_000).map(|_| random_text(&mut rng)));
    demand(&all);
    all
}

/// Ends the program unless the texts are few and short enough, and meet every
/// number.
fn demand(all: &[Vec<u8>]) {
    let bytes: usize = all.iter().map(|text| 8 + text.len()).sum();
    assert!(
        all.len() >= FEWEST && bytes <= MOST_BYTES,
        "{} texts, {bytes} bytes",
        all.len()
    );
    assert!(all.iter().all(|text| text.len() <= MOST_TEXT));
    let mut met = BTreeMap::new();
    for text in all {
        *met.entry(expected::number(text)).or_default() += 1;
    }
    fixed::demand_every_number(&met);
}
