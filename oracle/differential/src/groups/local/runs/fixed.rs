//! Fixed runs.

use super::{Growth, Run};
use crate::groups::csr32::Matrix;
use crate::groups::growth::{
    BORDERS, blocks_of, chain, cut, each_mask, graphs, mask_of, pairs_of, rooms,
};
use crate::groups::local::Call;
use crate::groups::local::cases::of_entries;
use crate::groups::local::rooms::{pattern_lent, plan_lent};
use crate::groups::mask::{Mask, of_index, words_needed};
use crate::rng::Rng;

/// Counts of growths that follow each other.
const COUNTS: [&[u64]; 20] = [
    &[0],
    &[1],
    &[u64::MAX],
    &[0, 0],
    &[1, 1],
    &[0, 3],
    &[3, 0],
    &[1, 2, 3],
    &[2, 0, 2],
    &[4, 1, 0, 0, 1],
    &[1; 8],
    &[1, u64::MAX],
    &[u64::MAX, 1],
    &[u64::MAX, u64::MAX, 0],
    &[1 << 63, 1 << 63],
    &[1 << 63, (1 << 63) - 1],
    &[0, u64::MAX, 0],
    &[(1 << 32) - 1, 2],
    &[1, 1 << 32],
    &[2, (1 << 32) + 1, 1],
];

pub fn fixed(run: &mut dyn FnMut(Call)) {
    small(run);
    larger(run);
    long_chains(run);
}

/// For the self-test: plain and by blocks, with refused growths between.
pub fn examples() -> Vec<Call> {
    let matrix = of_entries(5, &[(0, 1), (1, 2), (3, 2), (3, 3), (3, 3), (4, 3)]);
    let seeds = mask_of(5, &[0]);
    [None, Some(&[2, 1, 2][..])]
        .into_iter()
        .flat_map(|sizes| {
            [&[1, 1][..], &[0, 2, 0], &[u64::MAX, 1]].map(|counts| {
                let mut run = of(&matrix, sizes, &seeds, counts);
                refuse_between(&mut run, 1);
                Call::Run(Box::new(run))
            })
        })
        .collect()
}

/// With lists that have room for any region.
pub fn of(matrix: &Matrix, sizes: Option<&[u32]>, seeds: &Mask, counts: &[u64]) -> Run {
    let (side, entries) = (matrix.nrows, matrix.col_idx.len());
    let words = words_needed(side);
    let growths = counts.iter().enumerate().map(|(turn, &hops)| Growth {
        hops,
        lent: rooms::lent([words + turn % 3, words + turn % 2, words]),
    });
    let pattern = [side, side + 1, entries];
    Run {
        matrix: matrix.clone(),
        blocks: sizes.map(|sizes| blocks_of(sizes).blocks),
        seeds: seeds.clone(),
        growths: growths.collect(),
        pattern: pattern_lent(&pattern),
        plan: plan_lent(&[side, side + 1, entries, entries + 1, entries]),
        gathered: vec![(-77.5_f64).to_bits(); entries],
        numbers: vec![],
        told: vec![],
    }
}

/// Puts growths that are refused before, between and behind the others; which
/// list is too short changes.
pub fn refuse_between(run: &mut Run, turn: usize) {
    let words = words_needed(run.seeds.len);
    if words == 0 {
        return;
    }
    let accepted = std::mem::take(&mut run.growths);
    let count = accepted.len();
    let refused = |place: usize| {
        let mut lengths = [words; 3];
        lengths[(turn + place) % 3] = (words - 1) * ((turn + place) % 2);
        Growth {
            hops: [1, 0, u64::MAX, 3][(turn + place) % 4],
            lent: rooms::lent(lengths),
        }
    };
    for (place, growth) in accepted.into_iter().enumerate() {
        if (turn + place) % 3 > 0 {
            run.growths.push(refused(place));
        }
        run.growths.push(growth);
    }
    if turn % 4 > 0 {
        run.growths.push(refused(count));
    }
}

/// Every graph of 3 nodes with all seeds under one of the layouts, or plain,
/// and with some of the counts in turn.
fn small(run: &mut dyn FnMut(Call)) {
    let layouts: [Option<&[u32]>; 5] = [
        None,
        Some(&[1, 1, 1]),
        Some(&[2, 1]),
        Some(&[1, 2]),
        Some(&[3]),
    ];
    let mut turn = 0;
    for chosen in 0..1 << 9 {
        let matrix = of_entries(3, &pairs_of(3, chosen));
        for sizes in layouts {
            each_mask(3, &mut |seeds| {
                turn += 1;
                let mut made = of(&matrix, sizes, seeds, COUNTS[turn % COUNTS.len()]);
                if turn % 3 > 0 {
                    refuse_between(&mut made, turn);
                }
                run(Call::Run(Box::new(made)));
            });
        }
    }
}

/// Chains, stars and entries at random of sides at the borders of words, with
/// all of the counts.
fn larger(run: &mut dyn FnMut(Call)) {
    let mut rng = Rng::new(26);
    let mut turn = 0;
    for side in [1, 5, 12].into_iter().chain(BORDERS) {
        for mut entries in graphs(&mut rng, side) {
            let again: Vec<_> = entries.iter().step_by(5).copied().collect();
            entries.extend(again);
            let matrix = of_entries(side, &entries);
            let sizes = cut(side, || 1 + turn % 7);
            for counts in COUNTS {
                turn += 1;
                let seeds = match turn % 5 {
                    0 => mask_of(side, &[rng.below(side), side - 1]),
                    _ => of_index(side, rng.below(side)),
                };
                let sizes = if turn % 2 == 0 {
                    Some(&sizes[..])
                } else {
                    None
                };
                let mut made = of(&matrix, sizes, &seeds, counts);
                refuse_between(&mut made, turn);
                run(Call::Run(Box::new(made)));
            }
        }
    }
}

/// Distances past 64 and past 256, in steps of many sizes.
fn long_chains(run: &mut dyn FnMut(Call)) {
    for turned in [false, true] {
        let matrix = of_entries(600, &chain(600, turned));
        let threes = vec![3; 200];
        for counts in [
            &[100, 100, 56][..],
            &[255, 1],
            &[256, 0, 44],
            &[1; 70],
            &[598, 1],
            &[599, 1],
            &[64, 64, u64::MAX],
        ] {
            for sizes in [None, Some(&threes[..])] {
                for seed in [0, 300] {
                    let mut made = of(&matrix, sizes, &of_index(600, seed), counts);
                    refuse_between(&mut made, seed + counts.len());
                    run(Call::Run(Box::new(made)));
                }
            }
        }
    }
}
