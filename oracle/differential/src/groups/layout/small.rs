//! Small layouts, all of a kind.

use super::cases::{Block, blocks, built, numbered};
use super::{Call, Layout, Question, questions};
use crate::expected::SIDE_LIMIT;

pub fn run(run: &mut dyn FnMut(Call)) {
    all_blocks(run);
    all_faults(run);
    all_lengths(run);
    all_offsets(run);
}

/// Every layout of 1 to 6 blocks over a few kinds, ids, fields and component
/// counts, with all questions if it has no fault, else with two.
fn all_blocks(run: &mut dyn FnMut(Call)) {
    let far = [0, 1, u64::MAX];
    let far_fields = [0, 1, u32::MAX];
    let choices = [
        choice(&[0, 1, 2, 6, 7, 255], &far, &far_fields, &[0, 1, 2, 3]),
        choice(&[1, 2, 7], &[0, 1], &[0, 1], &[0, 1, 2]),
        choice(&[1, 2], &[0, 1], &[0, 1], &[0, 1, 2, 3]),
        choice(&[1, 2], &[0, 1], &[0, 1], &[0, 1, 3]),
        choice(&[1], &[0, 1, 2], &[0, 1], &[0, 2]),
        six(),
    ];
    let mut turn = 0;
    for (choice, count) in choices.iter().zip(1..) {
        each_list(choice, count, &mut |list| {
            turn += 1;
            let layout = built(list);
            if no_fault(list) {
                return questions::all(&layout, run);
            }
            questions::one(&layout, 6, run);
            questions::one(&layout, turn, run);
        });
    }
}

fn choice(kinds: &[u8], ids: &[u64], fields: &[u32], components: &[u32]) -> Vec<Block> {
    let mut all = vec![];
    for &kind in kinds {
        for &id in ids {
            for &field in fields {
                all.extend(components.iter().map(|&components| Block {
                    kind,
                    id,
                    field,
                    components,
                }));
            }
        }
    }
    all
}

/// Six different blocks, so that some lists of six have no block twice, and
/// one without components.
fn six() -> Vec<Block> {
    let mut all = choice(&[1, 2, 255], &[1], &[0, 1], &[1]);
    all[0].components = 3;
    all.extend(choice(&[1], &[2], &[0], &[0]));
    all
}

fn each_list(choice: &[Block], count: usize, work: &mut dyn FnMut(&[Block])) {
    let mut list = vec![choice[0]; count];
    for number in 0..choice.len().pow(count as u32) {
        let mut rest = number;
        for block in &mut list {
            *block = choice[rest % choice.len()];
            rest /= choice.len();
        }
        work(&list);
    }
}

/// Only chooses how many questions are asked; it decides no expectation.
fn no_fault(list: &[Block]) -> bool {
    let key = |block: &Block| (block.kind, block.id, block.field);
    (0..list.len()).all(|at| {
        let block = list[at];
        ![0, 7].contains(&block.kind)
            && block.components > 0
            && !list[..at].iter().any(|earlier| key(earlier) == key(&block))
    })
}

/// Every choice of faults in each of 3 blocks: an unknown kind, no components,
/// the key of the first block, a size that takes the total over the limit.
fn all_faults(run: &mut dyn FnMut(Call)) {
    for faults in 0..1 << 12 {
        let list: Vec<Block> = (0..3).map(|at| faulty(at, faults >> (4 * at))).collect();
        questions::one_each(&built(&list), run);
    }
}

/// The same faults in the second of 2 blocks.
pub fn faults_of_second(run: &mut dyn FnMut(Call)) {
    for faults in 1..1 << 4 {
        questions::one_each(&built(&[faulty(0, 0), faulty(1, faults)]), run);
    }
}

fn faulty(at: u64, faults: u32) -> Block {
    let fault = |bit: u32| faults >> bit & 1 == 1;
    Block {
        kind: if fault(0) { 7 } else { 1 },
        id: if fault(2) { 0 } else { at },
        field: 0,
        components: match (fault(1), fault(3)) {
            (true, _) => 0,
            (_, true) => SIDE_LIMIT as u32 + 1,
            _ => 1,
        },
    }
}

/// Every length from 0 to 3 of each block list, with offsets of every length
/// from 0 to 4.
fn all_lengths(run: &mut dyn FnMut(Call)) {
    let right = blocks(&numbered(&[1, 2, 3]));
    let offsets = [0, 1, 3, 6];
    for lengths in 0..1 << 8 {
        let length = |list: u32| lengths >> (2 * list) & 3;
        let mut blocks = right.clone();
        blocks.kinds.truncate(length(0));
        blocks.ids.truncate(length(1));
        blocks.fields.truncate(length(2));
        blocks.components.truncate(length(3));
        for count in 0..=4 {
            let offsets = offsets[..count].to_vec();
            let blocks = blocks.clone();
            questions::one_each(&Layout { blocks, offsets }, run);
        }
    }
}

/// Every offset list of up to 4 elements from 0 to 4, for blocks of 1 and 2.
fn all_offsets(run: &mut dyn FnMut(Call)) {
    for components in [&[1][..], &[2], &[1, 1], &[1, 2], &[2, 1], &[1, 1, 1]] {
        let blocks = blocks(&numbered(components));
        for count in 0..=4 {
            for number in 0..5_u64.pow(count) {
                let offsets = (0..count).map(|at| number / 5_u64.pow(at) % 5).collect();
                let blocks = blocks.clone();
                let layout = Layout { blocks, offsets };
                questions::ask(&layout, Question::BlockRange(number % 4), run);
                questions::one_each(&layout, run);
            }
        }
    }
}
