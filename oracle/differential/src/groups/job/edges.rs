//! Texts at the edges: right ones, and ones that are refused once they are
//! read.

use super::cases::{example, of_pairs};
use super::reading::{Job, MOST_BYTES};
use crate::groups::growth::{chain, cut};
use crate::groups::topology::Pair;
use crate::rng::Rng;

/// Numbers at the edges of 8, 16, 32 and 64 bits and of the limits.
const NUMBERS: [u64; 16] = [
    0,
    1,
    9,
    10,
    255,
    256,
    257,
    1_023,
    1_024,
    65_536,
    1_048_576,
    1_048_577,
    u32::MAX as u64,
    1 << 32,
    1 << 63,
    u64::MAX,
];

/// Short ones: sizes, hops and seeds of any number of bits, empty lists, faults
/// alone and together.
pub fn short() -> Vec<Vec<u8>> {
    let mut all: Vec<Job> = right();
    let base = all.clone();
    for job in &base[..3] {
        for number in NUMBERS {
            all.extend(with_number(job, number));
        }
        all.extend(without_lists(job));
    }
    all.extend(faulty());
    all.iter().map(Job::text).collect()
}

/// Graphs of few nodes under several layouts, from several seeds.
fn right() -> Vec<Job> {
    let ring: Vec<Pair> = [&chain(6, true)[..], &[(5, 0)]].concat();
    let star: Vec<Pair> = (1..9).map(|end| (end, 0)).collect();
    let twice = vec![(0, 2), (0, 1), (0, 2), (2, 2), (2, 2)];
    vec![
        example(),
        of_pairs(6, 2, &ring, &[3], 1),
        of_pairs(9, 3, &star, &[8, 8, 0], 2),
        of_pairs(3, 2, &twice, &[0], u64::MAX),
        of_pairs(1, 1, &[(0, 0)], &[0], 0),
        of_pairs(1, 1, &[], &[], 5),
        of_pairs(66, 7, &chain(66, false), &[64], 1),
        of_pairs(70, 64, &chain(70, true), &[69, 0], 3),
    ]
}

fn with_number(job: &Job, number: u64) -> Vec<Job> {
    let mut all = vec![
        Job {
            size: number,
            ..job.clone()
        },
        Job {
            hops: number,
            ..job.clone()
        },
        Job {
            seeds: vec![0, number],
            ..job.clone()
        },
    ];
    if let Ok(number) = u32::try_from(number) {
        for list in 0..3 {
            for place in [0, 1, usize::MAX] {
                let mut other = job.clone();
                let numbers = other.list(list);
                if let Some(last) = numbers.len().checked_sub(1) {
                    numbers[place.min(last)] = number;
                    all.push(other);
                }
            }
        }
    }
    all
}

/// Every choice of empty lists, also where there are no nodes.
fn without_lists(job: &Job) -> Vec<Job> {
    let mut all = vec![];
    for chosen in 0..16 {
        for size in [job.size, 0] {
            let mut other = job.clone();
            other.size = size;
            for list in 0..3 {
                if chosen >> list & 1 == 1 {
                    other.list(list).clear();
                }
            }
            if chosen >> 3 & 1 == 1 {
                other.seeds.clear();
            }
            all.push(other.clone());
            other.ptr = vec![0; size as usize + 1];
            other.cols.clear();
            all.push(other);
        }
    }
    all
}

type Change = fn(&mut Job);

/// What can be wrong with a job that is read, in the order of its checks.
const FAULTS: [Change; 14] = [
    |job| job.size = 257,
    |job| job.blocks.resize(1_024, 1),
    |job| job.ptr.resize(1_025, 0),
    |job| job.cols.resize(1_024, 0),
    |job| job.seeds.resize(1_025, 0),
    |job| job.seeds.push(job.size),
    |job| job.ptr.push(0),
    |job| job.ptr[0] = 1,
    |job| job.ptr[3] += 1,
    |job| job.ptr[1] = 9,
    |job| job.cols[1] = 3,
    |job| job.blocks.clear(),
    |job| job.blocks.insert(0, 0),
    |job| job.blocks.push(1),
];

/// Each of the faults, and each two of them; a total past the layout's limit
/// before and behind a block without components.
fn faulty() -> Vec<Job> {
    let mut all = vec![];
    for first in FAULTS {
        for second in FAULTS {
            let mut job = example();
            first(&mut job);
            second(&mut job);
            all.push(job);
        }
    }
    for blocks in [
        &[1_048_577][..],
        &[1_048_576],
        &[1_048_576, 1],
        &[1_048_576, 0],
        &[0, 1_048_577],
        &[1_048_577, 0],
        &[u32::MAX, u32::MAX],
        &[3, u32::MAX],
        &[2, 1, 1],
        &[1, 1],
        &[4_294_967_295, 4, 0],
    ] {
        let mut job = example();
        job.blocks = blocks.to_vec();
        all.push(job);
    }
    all
}

/// Lists as long as they may be, one number fewer and one more; the largest
/// size and one more.
pub fn lists() -> Vec<Vec<u8>> {
    let mut all = vec![];
    for size in [1, 255, 256, 257] {
        let chain = chain(size, size % 2 == 0);
        all.push(of_pairs(size, 1, &chain, &[0], 300));
        all.push(of_pairs(size, 5, &chain, &[size as u64 / 2], 3));
    }
    for length in [1_022, 1_023, 1_024, 1_025, 1_100] {
        for list in 0..3 {
            let mut job = example();
            let number = u32::from(list != 1);
            job.list(list).resize(length, number);
            all.push(job);
        }
        let mut job = example();
        job.seeds.resize(length, 2);
        all.push(job);
    }
    for entries in [1_022, 1_023, 1_024] {
        all.push(filled(entries, 1_024));
    }
    all.push(filled(1_023, 1_025));
    all.iter().map(Job::text).collect()
}

/// Size 256 with so many entries in no order, and so many seeds.
fn filled(entries: usize, seeds: usize) -> Job {
    let mut rng = Rng::new(entries as u64);
    let pairs: Vec<Pair> = (0..entries)
        .map(|_| (rng.below(256), rng.below(256)))
        .collect();
    let seeds: Vec<u64> = (0..seeds).map(|_| 100 + rng.below(40) as u64).collect();
    of_pairs(256, 3, &pairs, &seeds, 1)
}

/// Texts of just as many bytes as there may be, and of one and 256 more; lists
/// of 8,000 numbers. No accepted job is so long: these are refused for other
/// reasons once they are read.
pub fn longest() -> Vec<Vec<u8>> {
    let mut all = vec![];
    let jobs = long_jobs();
    for (list, job) in &jobs {
        for bytes in [MOST_BYTES, MOST_BYTES + 1] {
            all.push(job.of_length(*list, bytes));
        }
    }
    let (list, job) = &jobs[0];
    all.push(job.of_length(*list, MOST_BYTES + 256));
    for list in 0..3 {
        let mut job = example();
        job.list(list).resize(8_000, 0);
        all.push(job.text());
    }
    let mut job = example();
    job.seeds.resize(8_000, 0);
    all.push(job.text());
    all
}

/// Jobs and which of their lists is made longer: a large column (7), many
/// pointers (2), a large total (1), a block without components (15), a late
/// start (4), another end (5), a pointer that falls (6), a large seed (13), many
/// columns (1).
fn long_jobs() -> Vec<(usize, Job)> {
    let changes: [(usize, Change); 9] = [
        (2, |_| {}),
        (1, |_| {}),
        (0, |_| {}),
        (0, |job| job.blocks[0] = 0),
        (2, |job| job.ptr[0] = 1),
        (2, |job| job.ptr[256] = 9),
        (2, |job| job.ptr[7] = 0),
        (2, |job| job.seeds[0] = u64::MAX),
        (2, |job| job.cols.resize(1_500, 17)),
    ];
    let right = filled(1_023, 1_024);
    let jobs = changes.into_iter().map(|(list, change)| {
        let mut job = right.clone();
        change(&mut job);
        (list, job)
    });
    jobs.collect()
}

/// Right jobs that are as long as can be, of every size and block.
pub fn large(rng: &mut Rng, count: usize) -> Vec<Vec<u8>> {
    let jobs = (0..count).map(|_| {
        let size = 1 + rng.below(256);
        let most = rng.pick(&[size, 2 * size, 1_023]).min(1_023);
        let pairs: Vec<Pair> = (0..rng.below(most + 1))
            .map(|_| (rng.below(size), rng.below(size)))
            .collect();
        let most_seeds = rng.pick(&[1, 3, 40, 1_024]);
        let seeds: Vec<u64> = (0..rng.below(most_seeds + 1))
            .map(|_| rng.below(size) as u64)
            .collect();
        let most_block = rng.pick(&[1, 2, 7, 70]);
        Job {
            blocks: cut(size, || 1 + rng.below(most_block)),
            ..of_pairs(size, 1, &pairs, &seeds, rng.below(6) as u64)
        }
    });
    jobs.map(|job| job.text()).collect()
}
