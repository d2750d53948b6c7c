//! How long lent lists are, and how long they must be.

use super::{Gather, PatternLent, PlanLent};
use crate::groups::csr32::Matrix;
use crate::groups::mask::Mask;
use crate::groups::topology::{Side, Topology};
use crate::rng::Rng;

/// The lengths that a pattern needs: members, one pointer more, pairs. Of what
/// is refused anyway some lengths.
pub fn of_pattern(topology: &Topology, region: &Mask) -> [usize; 3] {
    let members = members(region);
    [
        members.len(),
        members.len() + 1,
        pairs_inside(&topology.rows, region),
    ]
}

/// Those of a plan: also a pointer for each pair and one more, and a source for
/// each entry inside.
pub fn of_plan(topology: &Topology, matrix: &Matrix, region: &Mask) -> [usize; 5] {
    let [nodes, pointers, pairs] = of_pattern(topology, region);
    [
        nodes,
        pointers,
        pairs,
        pairs + 1,
        entries_inside(matrix, region),
    ]
}

pub fn members(region: &Mask) -> Vec<usize> {
    let words = region.words.iter().enumerate();
    words
        .flat_map(|(place, &word)| {
            let bits = (0..64).filter(move |bit| word >> bit & 1 == 1);
            bits.map(move |bit| 64 * place + bit)
        })
        .collect()
}

fn pairs_inside(rows: &Side, region: &Mask) -> usize {
    let mut pairs = 0;
    for row in members(region) {
        let ends = [row, row + 1].map(|at| rows.row_word_ptr.get(at).copied().unwrap_or(0));
        for word in ends[0]..ends[1].min(rows.masks.len() as u32) {
            let index = rows.word_indices.get(word as usize).copied();
            let inside = index.and_then(|index| region.words.get(index as usize));
            pairs += (rows.masks[word as usize] & inside.unwrap_or(&0)).count_ones() as usize;
        }
    }
    pairs
}

fn entries_inside(matrix: &Matrix, region: &Mask) -> usize {
    let holds = |column: &u32| {
        let word = region.words.get(*column as usize / 64);
        word.is_some_and(|word| word >> (column % 64) & 1 == 1)
    };
    let rows = members(region).into_iter().filter_map(|row| {
        let ends = matrix.row_ptr.get(row..row + 2)?;
        matrix.col_idx.get(ends[0] as usize..ends[1] as usize)
    });
    rows.map(|columns| columns.iter().filter(|column| holds(column)).count())
        .sum()
}

/// Lists of three lengths with content that no pattern leaves.
pub fn pattern_lent(lengths: &[usize]) -> PatternLent {
    PatternLent {
        global_nodes: vec![0x7777_7777; lengths[0]],
        row_ptr: vec![0x8888_8888; lengths[1]],
        col_idx: vec![0x9999_9999; lengths[2]],
    }
}

/// Lists of five lengths.
pub fn plan_lent(lengths: &[usize]) -> PlanLent {
    PlanLent {
        pattern: pattern_lent(&lengths[..3]),
        source_ptr: vec![0xaaaa_aaaa; lengths[3]],
        source_indices: vec![0xbbbb_bbbb; lengths[4]],
    }
}

/// A list to gather into with content that no gather leaves.
pub fn values_lent(length: usize) -> Vec<f64> {
    vec![-77.5; length]
}

/// The place of the first list that is too short.
pub fn first_short(needed: &[usize], lent: &[usize]) -> u64 {
    let long = needed.iter().zip(lent);
    long.take_while(|(needed, lent)| lent >= needed).count() as u64
}

/// With some content, mostly long enough.
pub fn random<const LISTS: usize>(rng: &mut Rng, needed: [usize; LISTS]) -> [Vec<u32>; LISTS] {
    needed.map(|needed| {
        let wide = match rng.below(24) {
            0 => rng.room(needed),
            1..4 => rng.words(needed + 1 + needed % 3),
            _ => rng.words(needed),
        };
        wide.into_iter().map(|element| element as u32).collect()
    })
}

impl PatternLent {
    pub fn of([global_nodes, row_ptr, col_idx]: [Vec<u32>; 3]) -> Self {
        Self {
            global_nodes,
            row_ptr,
            col_idx,
        }
    }

    pub fn lengths(&self) -> [usize; 3] {
        [
            self.global_nodes.len(),
            self.row_ptr.len(),
            self.col_idx.len(),
        ]
    }
}

impl PlanLent {
    pub fn of([global_nodes, row_ptr, col_idx, source_ptr, source_indices]: [Vec<u32>; 5]) -> Self {
        Self {
            pattern: PatternLent::of([global_nodes, row_ptr, col_idx]),
            source_ptr,
            source_indices,
        }
    }

    pub fn lengths(&self) -> [usize; 5] {
        let [nodes, pointers, pairs] = self.pattern.lengths();
        [
            nodes,
            pointers,
            pairs,
            self.source_ptr.len(),
            self.source_indices.len(),
        ]
    }
}

impl Gather {
    /// The length that `out` needs: one value for each pair.
    pub fn pairs(&self) -> usize {
        self.source_ptr.len().saturating_sub(1)
    }
}
