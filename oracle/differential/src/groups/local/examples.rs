//! The examples of document 01.

use super::cases::{gather, gather_of, gathering, of_entries, pattern, pattern_in, plan};
use super::cases::{plan_in, topology_of};
use super::{Call, expected, same_bits};
use crate::answer::Answer;
use crate::expected::SIDE_LIMIT;
use crate::groups::csr32::{Matrix, refused_examples};
use crate::groups::growth::mask_of;
use crate::groups::mask::Mask;
use crate::groups::topology::of_pairs;

pub fn examples() -> Vec<(Call, Answer)> {
    [worked(), of_pattern(), of_matrix(), of_plan(), of_gather()].concat()
}

/// Entries (0,0) = 1.5, (0,0) = 2.25, (1,1) = -0.0.
fn twice() -> Matrix {
    let mut matrix = of_entries(2, &[(0, 0), (0, 0), (1, 1)]);
    matrix.values = vec![1.5, 2.25, -0.0];
    matrix
}

/// Region 0,1 gathers 3.75, +0.0; region 1 alone gathers -0.0. The job's
/// example: entries (0,1), (1,2), region 0,1, pointers 0,1,1, columns 1.
fn worked() -> Vec<(Call, Answer)> {
    let mut all = vec![];
    for (region, told, gathered) in [
        (
            mask_of(2, &[0, 1]),
            [2, 2, 3, 1, 0, 8 + 12 + 8 + 12 + 12],
            &[3.75, 0.0][..],
        ),
        (
            mask_of(2, &[1]),
            [1, 1, 1, 0, 1, 4 + 8 + 4 + 8 + 4],
            &[-0.0],
        ),
    ] {
        let topology = topology_of(&twice());
        all.push((plan(&topology, &twice(), &region), Answer::told_all(&told)));
        let call = gather_of(&topology, &twice(), &region);
        demand_gathered(&call, gathered);
        all.push((call, Answer::told(gathered.len() as u64)));
    }
    let chain = of_pairs(3, 3, &[(0, 1), (1, 2)]);
    let call = pattern(&chain, &mask_of(3, &[0, 1]));
    demand_pattern(&call, &[0, 1], &[0, 1, 1], &[1]);
    let half = 0.5_f64.to_bits();
    let told = [3, 2, 1, 2, 2, 1, 12, 8 + 12 + 4, half, half];
    all.push((call, Answer::told_all(&told)));
    all
}

/// Ends the program unless this is what is expected to be gathered.
fn demand_gathered(call: &Call, values: &[f64]) {
    let mut call = call.clone();
    let answer = expected::answer(&mut call);
    let Call::Gather(gather) = call else {
        panic!("a gather");
    };
    assert!(answer.is_ok() && same_bits(&gather.out, values));
}

fn demand_pattern(call: &Call, nodes: &[u32], pointers: &[u32], columns: &[u32]) {
    let mut call = call.clone();
    let answer = expected::answer(&mut call);
    let Call::Pattern { lent, .. } = call else {
        panic!("a pattern");
    };
    assert!(answer.is_ok());
    assert_eq!(lent.global_nodes, nodes);
    assert_eq!(lent.row_ptr, pointers);
    assert_eq!(lent.col_idx, columns);
}

/// The table's: nrows 1,048,577, a stored word 0, 2 by 3, mask 4 and side 3,
/// length 65 and second word 2, a list that is too short.
fn of_pattern() -> Vec<(Call, Answer)> {
    let mut over = of_pairs(1, 1, &[]);
    over.rows.nrows = SIDE_LIMIT + 1;
    let mut empty_word = of_pairs(1, 1, &[(0, 0)]);
    empty_word.rows.masks[0] = 0;
    empty_word.rows.structural_nnz = 0;
    let three = of_pairs(3, 3, &[(0, 1), (1, 2)]);
    let none = of_pairs(65, 65, &[]);
    let mut stray = mask_of(65, &[]);
    stray.words[1] = 2;
    let right = mask_of(65, &[64]);
    let mut all = vec![];
    for (topology, region, answer) in [
        (&over, mask_of(1, &[]), Answer::refused(1)),
        (&empty_word, mask_of(1, &[]), Answer::refused(9)),
        (&of_pairs(2, 3, &[]), mask_of(2, &[]), Answer::refused(10)),
        (&three, mask_of(4, &[]), Answer::wrong_length(3, 4)),
        (&none, stray, Answer::refused(12)),
    ] {
        let matrix = Matrix {
            nrows: topology.rows.nrows.min(65),
            ncols: topology.rows.ncols,
            row_ptr: vec![0; topology.rows.nrows.min(65) + 1],
            col_idx: vec![],
            values: vec![],
        };
        all.push((pattern(topology, &region), answer));
        all.push((plan(topology, &matrix, &region), answer));
    }
    let short = Answer::refused(25);
    all.push((pattern_in(&none, &right, &[0, 2, 0]), short));
    all.push((pattern_in(&none, &right, &[1, 1, 0]), short));
    let region = mask_of(2, &[0, 1]);
    let own = topology_of(&twice());
    for lengths in [[2, 3, 2, 3, 2], [2, 3, 2, 2, 3], [2, 3, 1, 3, 3]] {
        all.push((plan_in(&own, &twice(), &region, &lengths), short));
    }
    all
}

/// The table's of a matrix: 1 to 8.
fn of_matrix() -> Vec<(Call, Answer)> {
    let topology = of_pairs(1, 1, &[(0, 0)]);
    let region = mask_of(1, &[0]);
    let refused = refused_examples().into_iter();
    refused
        .map(|(matrix, number)| (plan(&topology, &matrix, &region), Answer::refused(number)))
        .collect()
}

/// The table's of a plan: 2 by 2 and 3 by 3; an empty matrix and the pair
/// (0,0), and the reverse.
fn of_plan() -> Vec<(Call, Answer)> {
    let one: Mask = mask_of(1, &[0]);
    let empty = of_entries(1, &[]);
    let entry = of_entries(1, &[(0, 0)]);
    let three = of_entries(3, &[]);
    let two = of_pairs(2, 2, &[]);
    vec![
        (plan(&two, &three, &mask_of(2, &[])), Answer::refused(22)),
        (
            plan(&topology_of(&entry), &empty, &one),
            Answer::refused(23),
        ),
        (
            plan(&topology_of(&empty), &entry, &one),
            Answer::refused(24),
        ),
    ]
}

/// The table's: pointers 1,1; infinity; a wrong length; a short list. And a
/// sum of finite values that reaches infinity, which is an answer.
fn of_gather() -> Vec<(Call, Answer)> {
    let mut long = gathering(&[0, 1], &[0], &[1.0]);
    long.values.push(2.0);
    let mut short = gathering(&[0, 1], &[0], &[1.0]);
    short.out.clear();
    let sum = gather(&[0, 2], &[0, 1], &[f64::MAX, f64::MAX]);
    demand_gathered(&sum, &[f64::INFINITY]);
    vec![
        (gather(&[1, 1], &[0], &[1.0]), Answer::refused(26)),
        (gather(&[0, 1], &[0], &[f64::INFINITY]), Answer::refused(8)),
        (Call::Gather(long), Answer::wrong_length(1, 2)),
        (Call::Gather(short), Answer::refused(25)),
        (sum, Answer::told(1)),
    ]
}
