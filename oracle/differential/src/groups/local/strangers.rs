//! Plans on the topology of another matrix: a pair without an entry (23), an
//! entry without a pair (24), and which comes first.

use super::Call;
use super::cases::{of_entries, plan};
use crate::groups::csr32::Matrix;
use crate::groups::growth::{each_mask, mask_of, pairs_of};
use crate::groups::mask::full;
use crate::groups::topology::{Pair, of_pairs};
use crate::rng::Rng;

pub fn run(run: &mut dyn FnMut(Call)) {
    near_graphs(run);
    columns_of_a_row(run);
    several_rows(run);
    repeated(run);
    of_many(&mut Rng::new(23), run);
}

/// Every graph of 3 nodes, and the entries of one that differs in one or two
/// pairs, with all regions.
fn near_graphs(run: &mut dyn FnMut(Call)) {
    for chosen in 0..1_usize << 9 {
        let topology = of_pairs(3, 3, &pairs_of(3, chosen));
        for first in 0..9 {
            for second in first..9 {
                let other = chosen ^ (1 << first | 1 << second);
                let mut entries = pairs_of(3, other);
                if second % 2 == 0 {
                    entries.reverse();
                }
                let matrix = of_entries(3, &entries);
                each_mask(3, &mut |region| run(plan(&topology, &matrix, region)));
            }
        }
    }
}

/// A row whose topology and whose entries are any of the columns 1, 63, 64, 130
/// and 199: in a word of their own, beside others, before the first word and
/// past the last. Regions that hold all of them, or not all.
fn columns_of_a_row(run: &mut dyn FnMut(Call)) {
    let columns = [1, 63, 64, 130, 199];
    let of = |row: usize, chosen: usize| -> Vec<Pair> {
        let own = (0..5).filter(|at| chosen >> at & 1 == 1);
        own.map(|at| (row, columns[at])).collect()
    };
    let regions = [
        full(200),
        mask_of(200, &[0, 1, 64, 130, 199]),
        mask_of(200, &[0, 63, 130]),
        mask_of(200, &[1, 63, 64, 130, 199]),
        mask_of(200, &[0, 64, 128]),
    ];
    for has in 0..32 {
        let topology = of_pairs(200, 200, &of(0, has));
        for stored in 0..32 {
            let rising = of(0, stored);
            let falling: Vec<Pair> = rising.iter().rev().copied().collect();
            let twice = [rising.as_slice(), &falling].concat();
            for entries in [rising, falling, twice] {
                let matrix = of_entries(200, &entries);
                for region in &regions {
                    run(plan(&topology, &matrix, region));
                }
            }
        }
    }
}

/// What is wrong in a row.
#[derive(Clone, Copy)]
enum Fault {
    Nothing,
    NoEntry,
    NoPair,
    Both,
    /// An entry without a pair stands before a pair without an entry.
    BothTurned,
    /// Outside of the region alone.
    Outside,
}

const FAULTS: [Fault; 6] = [
    Fault::Nothing,
    Fault::NoEntry,
    Fault::NoPair,
    Fault::Both,
    Fault::BothTurned,
    Fault::Outside,
];

/// Each row of three with each fault: the first local row decides, and in it 23
/// comes before 24. A region may lack a row, and all regions lack node 5.
fn several_rows(run: &mut dyn FnMut(Call)) {
    for number in 0..6_usize.pow(3) {
        let mut pairs = vec![];
        let mut entries = vec![];
        for row in 0..3 {
            let fault = FAULTS[number / 6_usize.pow(row as u32) % 6];
            let (has, stored): (&[usize], &[usize]) = match fault {
                Fault::Nothing => (&[1, 3], &[3, 1]),
                Fault::NoEntry => (&[1, 3], &[1]),
                Fault::NoPair => (&[1], &[3, 1]),
                Fault::Both => (&[1, 3], &[1, 4]),
                Fault::BothTurned => (&[1, 3], &[0, 1]),
                Fault::Outside => (&[1, 5, 6], &[1, 7, 7]),
            };
            pairs.extend(has.iter().map(|&column| (2 * row, column)));
            entries.extend(stored.iter().map(|&column| (2 * row, column)));
        }
        let topology = of_pairs(8, 8, &pairs);
        let matrix = of_entries(8, &entries);
        for region in [
            mask_of(8, &[0, 1, 2, 3, 4]),
            mask_of(8, &[1, 2, 3, 4]),
            mask_of(8, &[0, 1, 3, 4]),
            mask_of(8, &[0, 1, 2, 3]),
            mask_of(8, &[0, 2, 3, 4]),
            mask_of(8, &[0, 1, 2, 4]),
            full(8),
        ] {
            run(plan(&topology, &matrix, &region));
        }
    }
}

/// As many entries as pairs, but one entry twice and one pair without any; an
/// entry without a pair many times.
fn repeated(run: &mut dyn FnMut(Call)) {
    for [a, b, c] in [
        [0, 1, 2],
        [2, 0, 1],
        [0, 64, 128],
        [63, 64, 65],
        [129, 0, 64],
    ] {
        let topology = of_pairs(130, 130, &[(a, a), (a, b), (a, c)]);
        for columns in [
            vec![a, a, b],
            vec![b, b, b],
            vec![a, b, c, c],
            vec![c, b, a],
            vec![c, c, a, a],
            vec![a, b, c, 5, 5, 5],
            vec![5, a, b, c],
            vec![a, c, 70, b],
            vec![5; 40],
        ] {
            let entries: Vec<Pair> = columns.iter().map(|&column| (a, column)).collect();
            let matrix = of_entries(130, &entries);
            run(plan(&topology, &matrix, &full(130)));
            run(plan(&topology, &matrix, &mask_of(130, &[a, b])));
            run(plan(&topology, &matrix, &mask_of(130, &[a, c, 5])));
        }
    }
}

/// One pair or one entry of many missing, in an early row, in the middle or in
/// the last.
fn of_many(rng: &mut Rng, run: &mut dyn FnMut(Call)) {
    for (side, count) in [(20, 60), (130, 500), (300, 2_000)] {
        let mut pairs: Vec<Pair> = (0..count)
            .map(|_| (rng.below(side), rng.below(side)))
            .collect();
        pairs.sort_unstable();
        pairs.dedup();
        let whole = of_pairs(side, side, &pairs);
        for place in [0, 1, pairs.len() / 2, pairs.len() - 2, pairs.len() - 1] {
            let mut fewer = pairs.clone();
            fewer.remove(place);
            let less = of_pairs(side, side, &fewer);
            for shuffled in [false, true] {
                let made = |entries: &[Pair], rng: &mut Rng| -> Matrix {
                    let mut entries = entries.to_vec();
                    if shuffled {
                        rng.shuffle(&mut entries);
                    }
                    of_entries(side, &entries)
                };
                let [all, some] = [&pairs, &fewer].map(|entries| made(entries, rng));
                for region in super::fixed::regions(rng, side) {
                    run(plan(&whole, &some, &region));
                    run(plan(&less, &all, &region));
                }
            }
        }
    }
}
