//! The examples of document 01.

use super::cases::{blocks_of, close, grow, grow_field, mask_of, multiplicity, owners, regions_of};
use super::{Call, rooms};
use crate::answer::Answer;
use crate::groups::layout::Layout;
use crate::groups::topology::{Topology, of_pairs};

pub fn examples() -> Vec<(Call, Answer)> {
    [growths(), refused(), of_layouts(), of_regions()].concat()
}

/// Entries (0,1), (1,2), side 3.
fn chain() -> Topology {
    of_pairs(3, 3, &[(0, 1), (1, 2)])
}

fn grown(seeds: &[usize], hops: u64) -> Call {
    grow(&chain(), &mask_of(3, seeds), hops)
}

fn growths() -> Vec<(Call, Answer)> {
    let field = grow_field(&chain(), &blocks_of(&[2, 1]), &mask_of(3, &[1]), 1);
    vec![
        (
            grown(&[0], 0),
            Answer::told_all(&[0, 0, 1, 1, 0, 0, 0, 0, 0, 0]),
        ),
        (
            grown(&[0], 2),
            Answer::told_all(&[2, 2, 1, 3, 2, 2, 1, 3, 3, 2]),
        ),
        (
            grown(&[0], 3),
            Answer::told_all(&[3, 3, 1, 3, 3, 2, 2, 4, 4, 2]),
        ),
        (
            grown(&[0], 9),
            Answer::told_all(&[9, 3, 1, 3, 3, 2, 2, 4, 4, 2]),
        ),
        (
            grown(&[2], 1),
            Answer::told_all(&[1, 1, 1, 2, 1, 0, 1, 1, 1, 1]),
        ),
        (grown(&[], 9), Answer::told_all(&[9])),
        (field, Answer::told_all(&[1, 1, 1, 2, 3, 2, 2, 2, 1, 3])),
    ]
}

/// The table's: a stored word 0, 2 by 3, mask 4 and side 3, length 65 and
/// second word 2, total 4 and 3 by 3, output of one word and 65 nodes.
fn refused() -> Vec<(Call, Answer)> {
    let mut empty_word = of_pairs(1, 1, &[(0, 0)]);
    empty_word.rows.masks[0] = 0;
    empty_word.rows.structural_nnz = 0;
    let wide = of_pairs(2, 3, &[]);
    let longer = mask_of(4, &[]);
    let none = of_pairs(65, 65, &[]);
    let mut stray = mask_of(65, &[]);
    stray.words[1] = 2;
    let right = mask_of(65, &[64]);
    let short = super::cases::grow_in(&none, &right, 1, rooms::lent([1, 2, 2]));
    let four = blocks_of(&[1; 4]);
    vec![
        (grow(&empty_word, &mask_of(1, &[]), 1), Answer::refused(9)),
        (grow(&wide, &mask_of(2, &[]), 1), Answer::refused(10)),
        (grow(&chain(), &longer, 1), Answer::wrong_length(3, 4)),
        (grow(&none, &stray, 1), Answer::refused(12)),
        (short, Answer::refused(25)),
        (grow_field(&chain(), &four, &longer, 1), Answer::refused(18)),
    ]
}

/// The table's of a layout: no blocks; 2,0; the same block twice; kind 7; and
/// offsets that are not the totals.
pub fn refused_layouts() -> Vec<(Layout, u32)> {
    let nothing = Layout {
        offsets: vec![0],
        ..blocks_of(&[])
    };
    let mut twice = blocks_of(&[1, 1]);
    twice.blocks.ids = vec![0, 0];
    twice.blocks.fields = vec![0, 0];
    let mut seven = blocks_of(&[1]);
    seven.blocks.kinds = vec![7];
    let mut shifted = blocks_of(&[1]);
    shifted.offsets = vec![1, 1];
    vec![
        (nothing, 14),
        (blocks_of(&[2, 0]), 15),
        (twice, 16),
        (seven, 17),
        (shifted, 26),
    ]
}

/// The table's of a layout, and of owners.
fn of_layouts() -> Vec<(Call, Answer)> {
    let two = blocks_of(&[2]);
    let mut all = vec![
        (
            close(&blocks_of(&[2, 1]), &mask_of(3, &[1])),
            Answer::told(3),
        ),
        (owners(&two, &[0, 0], 0, 1), Answer::refused(19)),
        (owners(&two, &[5, 9], 4, 1), Answer::refused(20)),
        (owners(&two, &[1, 9], 4, 1), Answer::refused(21)),
        (owners(&two, &[1, 1], 4, 1), Answer::told(1)),
    ];
    for (layout, number) in refused_layouts() {
        let selected = mask_of(2, &[]);
        let topology = of_pairs(2, 2, &[]);
        let refused = Answer::refused(number);
        all.push((close(&layout, &selected), refused));
        all.push((grow_field(&topology, &layout, &selected, 1), refused));
        all.push((owners(&layout, &[0, 0], 1, 2), refused));
    }
    all
}

/// Regions {0,1}, {1,2}, {1}; weights of their nodes.
fn of_regions() -> Vec<(Call, Answer)> {
    let regions = regions_of(3, &[&[0, 1], &[1, 2], &[1]]);
    let weight = |region, node| Call::Weight {
        regions: regions.clone(),
        region,
        node,
    };
    let five_thirds = (5.0_f64 / 3.0).to_bits();
    let third = (1.0_f64 / 3.0).to_bits();
    vec![
        (
            multiplicity(&regions, 3),
            Answer::told_all(&[3, 3, 5, 3, 1, 3, 3, 2, five_thirds, third]),
        ),
        (weight(0, 0), Answer::told(65_536)),
        (weight(1, 1), Answer::told(21_845)),
        (weight(2, 0), Answer::told(0)),
        (weight(3, 0), Answer::refused(13)),
        (weight(0, 3), Answer::refused(13)),
    ]
}
