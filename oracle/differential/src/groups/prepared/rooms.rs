//! How long lent lists are, and how long they must be.

use super::{Lent, Masks};
use crate::expected::SIDE_LIMIT;
use crate::groups::csr32::Matrix;
use crate::groups::growth::rooms as mask_rooms;
use crate::groups::local::{PatternLent, PlanLent, plan_lent};
use crate::groups::mask::words_needed;
use crate::groups::topology::{BothLent, Lent as SideLent, both_lent, of_both};
use crate::rng::Rng;

/// So many lists a prepared region is lent.
pub const LISTS: usize = 16;

/// Of all lists, in their order. Of a side over the limit only some lengths,
/// since the call is refused before it writes.
pub fn needed(matrix: &Matrix) -> Vec<usize> {
    let entries = matrix.col_idx.len();
    let side = if matrix.nrows > SIDE_LIMIT {
        2
    } else {
        matrix.nrows
    };
    let masks = [words_needed(side); 3];
    let plan = [side, side + 1, entries, entries + 1, entries];
    [&of_both(matrix)[..], &masks, &plan].concat()
}

/// Lists of sixteen lengths with content that no call leaves.
pub fn lent(lengths: &[usize]) -> Lent {
    Lent {
        sides: both_lent(&lengths[..8]),
        masks: mask_rooms::lent([lengths[8], lengths[9], lengths[10]]),
        plan: plan_lent(&lengths[11..]),
    }
}

/// With some content; now and then one list is too short, or some are longer
/// than needed.
pub fn random(rng: &mut Rng, needed: &[usize]) -> Lent {
    let mut lengths = needed.to_vec();
    match rng.below(8) {
        0 => {
            let place = rng.below(LISTS);
            lengths[place] = match rng.below(3) {
                0 => rng.below(lengths[place] + 1),
                _ => lengths[place].saturating_sub(1),
            };
        }
        1 | 2 => lengths
            .iter_mut()
            .for_each(|length| *length += rng.below(4)),
        _ => {}
    }
    Lent {
        sides: BothLent {
            rows: side(rng, &lengths[..3]),
            columns: side(rng, &lengths[3..6]),
            starts: narrow(rng, lengths[6]),
            order: narrow(rng, lengths[7]),
        },
        masks: Masks {
            region: rng.words(lengths[8]),
            frontier: rng.words(lengths[9]),
            scratch: rng.words(lengths[10]),
        },
        plan: PlanLent {
            pattern: PatternLent {
                global_nodes: narrow(rng, lengths[11]),
                row_ptr: narrow(rng, lengths[12]),
                col_idx: narrow(rng, lengths[13]),
            },
            source_ptr: narrow(rng, lengths[14]),
            source_indices: narrow(rng, lengths[15]),
        },
    }
}

fn side(rng: &mut Rng, lengths: &[usize]) -> SideLent {
    SideLent {
        row_word_ptr: narrow(rng, lengths[0]),
        word_indices: narrow(rng, lengths[1]),
        masks: rng.words(lengths[2]),
    }
}

fn narrow(rng: &mut Rng, length: usize) -> Vec<u32> {
    (0..length).map(|_| rng.word() as u32).collect()
}
