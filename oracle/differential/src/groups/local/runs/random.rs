//! Random runs.

use super::Run;
use super::fixed::{of, refuse_between};
use crate::groups::csr32::finite;
use crate::groups::growth::{FAR, any_way, cut, mask_of, one_way};
use crate::groups::local::cases::of_entries;
use crate::rng::Rng;

/// Up to 5 growths, some of them refused, the last lists with room or without.
pub fn random(rng: &mut Rng) -> Run {
    let side = match rng.below(20) {
        0 => 60 + rng.below(80),
        _ => 1 + rng.below(16),
    };
    let count = rng.below(2 * side + 1);
    let mut entries = match rng.below(3) {
        0 => any_way(rng, side, count),
        _ => one_way(rng, side, side),
    };
    rng.shuffle(&mut entries);
    let mut matrix = of_entries(side, &entries);
    for value in &mut matrix.values {
        *value = finite(rng);
    }
    let most = 1 + rng.below(4);
    let sizes = cut(side, || 1 + rng.below(most));
    let sizes = rng.once_in(2).then_some(&sizes[..]);
    let seeds: Vec<usize> = (0..rng.below(3)).map(|_| rng.below(side)).collect();
    let counts: Vec<u64> = (0..1 + rng.below(5))
        .map(|_| match rng.below(8) {
            0 => rng.pick(&FAR),
            1 => 0,
            _ => 1 + rng.below(3) as u64,
        })
        .collect();
    let mut run = of(&matrix, sizes, &mask_of(side, &seeds), &counts);
    for growth in &mut run.growths {
        let lists = [
            &mut growth.lent.region,
            &mut growth.lent.frontier,
            &mut growth.lent.scratch,
        ];
        for list in lists {
            list.iter_mut().for_each(|word| *word = rng.word());
        }
    }
    if rng.once_in(2) {
        refuse_between(&mut run, rng.below(24));
    }
    if rng.once_in(10) {
        run.plan.source_indices.truncate(rng.below(3));
    }
    if rng.once_in(10) {
        run.pattern.col_idx.truncate(rng.below(3));
    }
    run
}
