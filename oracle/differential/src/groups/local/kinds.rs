//! Which calls are told apart when they are recorded.

use super::{Call, Gather, rooms};
use crate::answer::Answer;
use crate::groups::csr32::accepted;
use crate::groups::growth::faulty_part;

pub fn told_apart(call: &Call, answer: Answer) -> u64 {
    let [first, second, third, fourth] = [0, 1, 2, 3].map(|at| answer.values[at]);
    match (call, answer.number) {
        (Call::Pattern { lent, .. }, 0) => {
            let longer = lent.lengths() != [second, second + 1, third].map(|count| count as usize);
            6 * second.min(2) + 2 * third.min(2) + u64::from(longer)
        }
        (Call::Plan { lent, .. }, 0) => {
            let needed = [first, first + 1, second, second + 1, third];
            let longer = lent.lengths() != needed.map(|count| count as usize);
            12 * first.min(2) + 4 * second.min(2) + 2 * fourth.min(1) + u64::from(longer)
        }
        (Call::Gather(gather), 0) => {
            let mut ends = gather.source_ptr.windows(2);
            let direct = ends.all(|ends| ends[1] == ends[0] + 1);
            let longer = gather.out.len() != gather.pairs();
            4 * first.min(2) + 2 * u64::from(direct) + u64::from(longer)
        }
        (Call::Plan { matrix, .. }, 1) if accepted(matrix).is_err() => 9,
        (Call::Pattern { topology, .. } | Call::Plan { topology, .. }, 1 | 9) => {
            faulty_part(topology)
        }
        (Call::Pattern { region, .. } | Call::Plan { region, .. }, 11) => {
            u64::from(answer.actual == region.len as u64)
        }
        (
            Call::Plan {
                topology,
                matrix,
                region,
                lent,
            },
            25,
        ) => rooms::first_short(&rooms::of_plan(topology, matrix, region), &lent.lengths()),
        (
            Call::Pattern {
                topology,
                region,
                lent,
            },
            25,
        ) => rooms::first_short(&rooms::of_pattern(topology, region), &lent.lengths()),
        (Call::Gather(gather), 26) => way(gather),
        _ => answer.none_zero_or_more(),
    }
}

/// In which way a plan is none.
fn way(gather: &Gather) -> u64 {
    let pointers = &gather.source_ptr;
    match pointers.first() {
        None => 0,
        Some(1..) => 1,
        Some(0) if pointers.windows(2).any(|ends| ends[0] > ends[1]) => 2,
        Some(0) if pointers[pointers.len() - 1] as usize != gather.source_indices.len() => 3,
        Some(0) => 4,
    }
}
