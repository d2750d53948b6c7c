//! The examples of document 01.

use super::cases::{owners, prepare, prepare_in};
use super::{Call, Prepare, expected, rooms};
use crate::answer::Answer;
use crate::groups::csr32::{Matrix, refused_examples};
use crate::groups::growth::{blocks_of, mask_of, refused_layouts};
use crate::groups::layout::Layout;
use crate::groups::local::of_entries;

pub fn examples() -> Vec<(Call, Answer)> {
    [
        worked(),
        gathers(),
        of_matrix(),
        of_layout(),
        of_rest(),
        of_owners(),
    ]
    .concat()
}

/// Entries (0,1), (1,2), side 3.
fn chain() -> Matrix {
    of_entries(3, &[(0, 1), (1, 2)])
}

/// The job's example, and blocks of 2 and 1 from seed 1 by one hop.
fn worked() -> Vec<(Call, Answer)> {
    let job = prepare(&chain(), &blocks_of(&[1; 3]), &mask_of(3, &[0]), 1);
    let after = demanded(&job);
    assert_eq!(after.lent.masks.region, [0b11]);
    assert_eq!(after.lent.masks.frontier, [0b10]);
    let plan = &after.lent.plan;
    assert_eq!(plan.pattern.global_nodes, [0, 1, 0]);
    assert_eq!(plan.pattern.row_ptr, [0, 1, 1, 0]);
    assert_eq!(plan.pattern.col_idx, [1, 0]);
    assert_eq!(plan.source_ptr, [0, 1, 0]);
    assert_eq!(plan.source_indices, [0, 0]);
    let by_blocks = prepare(&chain(), &blocks_of(&[2, 1]), &mask_of(3, &[1]), 1);
    let after = demanded(&by_blocks);
    assert_eq!(after.lent.masks.region, [0b111]);
    assert_eq!(after.lent.plan.pattern.global_nodes, [0, 1, 2]);
    assert_eq!(after.lent.plan.pattern.row_ptr, [0, 1, 2, 2]);
    let built = [2, 2, 2, 3, 3, 2, 40, 40];
    let told = |rest: [&[u64]; 3]| Answer::told_all(&[&built[..], &rest.concat()].concat());
    vec![
        (
            job,
            told([
                &[1, 1, 1, 1, 2, 2, 1, 1, 0, 1],
                &[3, 2, 1, 2, 2, 1, 12, 8 + 12 + 4],
                &[2, 1, 1, 0, 1, 24 + 8 + 4],
            ]),
        ),
        (
            by_blocks,
            told([
                &[1, 1, 1, 2, 3, 2, 2, 2, 1, 3],
                &[3, 3, 2, 2, 2, 2, 12, 12 + 16 + 8],
                &[3, 2, 2, 0, 1, 36 + 12 + 8],
            ]),
        ),
    ]
}

/// Entries (0,0) = 1.5, (0,0) = 2.25, (1,1) = -0.0: region 0,1 gathers 3.75,
/// +0.0; region 1 alone gathers -0.0.
fn gathers() -> Vec<(Call, Answer)> {
    let mut twice = of_entries(2, &[(0, 0), (0, 0), (1, 1)]);
    twice.values = vec![1.5, 2.25, -0.0];
    let cases: [(&[usize], &[f64]); 2] = [(&[0, 1], &[3.75, 0.0]), (&[1], &[-0.0])];
    let calls = cases.into_iter().map(|(seeds, values)| {
        let call = prepare(&twice, &blocks_of(&[1, 1]), &mask_of(2, seeds), 0);
        let bits: Vec<u64> = values.iter().map(|value| value.to_bits()).collect();
        assert_eq!(demanded(&call).gathered[..bits.len()], bits);
        let told = expected::answer(&mut call.clone()).expect("a right call");
        (call, told)
    });
    calls.collect()
}

/// What the call is expected to leave.
fn demanded(call: &Call) -> Prepare {
    let mut call = call.clone();
    let answer = expected::answer(&mut call);
    let Call::Prepare(after) = call else {
        panic!("a prepared region");
    };
    assert!(answer.is_ok());
    *after
}

/// Both calls with a fault that they check alike.
fn both(matrix: &Matrix, layout: &Layout, number: u32) -> [(Call, Answer); 2] {
    let side = matrix.nrows.min(3);
    [
        (
            prepare(matrix, layout, &mask_of(side, &[]), 1),
            Answer::refused(number),
        ),
        (
            owners(matrix, layout, &vec![0; side], 1, 3),
            Answer::refused(number),
        ),
    ]
}

/// The table's of a matrix: 1 to 8.
fn of_matrix() -> Vec<(Call, Answer)> {
    let refused = refused_examples().into_iter();
    refused
        .flat_map(|(matrix, number)| both(&matrix, &blocks_of(&[1]), number))
        .collect()
}

/// The table's of a layout, and total 4 and 3 by 3.
fn of_layout() -> Vec<(Call, Answer)> {
    let mut refused = refused_layouts();
    refused.push((blocks_of(&[4]), 18));
    refused
        .into_iter()
        .flat_map(|(layout, number)| both(&chain(), &layout, number))
        .collect()
}

/// The table's: mask 4 and side 3; length 65 and second word 2; output of one
/// word and 65 nodes.
fn of_rest() -> Vec<(Call, Answer)> {
    let three = blocks_of(&[1; 3]);
    let wide = of_entries(65, &[]);
    let layout = blocks_of(&[65]);
    let mut stray = mask_of(65, &[]);
    stray.words[1] = 2;
    let mut short = rooms::needed(&wide);
    short[8] = 1;
    let right = mask_of(65, &[64]);
    vec![
        (
            prepare(&chain(), &three, &mask_of(4, &[]), 1),
            Answer::wrong_length(3, 4),
        ),
        (prepare(&wide, &layout, &stray, 1), Answer::refused(12)),
        (
            prepare_in(&wide, &layout, &right, 1, &short),
            Answer::refused(25),
        ),
    ]
}

/// The table's: owners 0, ranks 0; owners 5,9 and 1,9, ranks 4.
fn of_owners() -> Vec<(Call, Answer)> {
    let matrix = of_entries(2, &[(0, 1)]);
    let two = blocks_of(&[2]);
    let cases: [(&[u32], u32, usize, Answer); 6] = [
        (&[0, 0], 0, 1, Answer::refused(19)),
        (&[5, 9], 4, 1, Answer::refused(20)),
        (&[1, 9], 4, 1, Answer::refused(21)),
        (&[1], 4, 1, Answer::wrong_length(2, 1)),
        (&[1, 1], 4, 0, Answer::refused(25)),
        (&[1, 1], 4, 1, Answer::told(1)),
    ];
    cases
        .into_iter()
        .map(|(list, ranks, room, answer)| (owners(&matrix, &two, list, ranks, room), answer))
        .collect()
}
