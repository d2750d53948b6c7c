//! Items 7 to 10: masks with bits past the length or with a wrong word count,
//! the order at a multiplicity, and the kinds of a block.

use hybit_open::{
    AbtmDualTopology, Csr32Matrix, DofBlock, DofEntityKind, DofMask, FieldAwareDofLayout,
    close_to_field_blocks, extract_local_submatrix_pattern, grow_field_aware_region,
    grow_undirected_region, region_multiplicity,
};

use crate::line;

pub fn run() {
    bits_past_the_length();
    wrong_word_count();
    line(
        "9",
        "region_multiplicity(3, [mask of 3 with bits 3 and 63 (hand-made), mask of 4])",
        "11 before 12",
        || region_multiplicity(3, &[stray(), DofMask::new(4)]).map(|_| "accepted"),
    );
    line(
        "10",
        "DofEntityKind::from_code of 0, 1, 6, 7, 254, 255, 256, 257, u32::MAX: accepted",
        "17 for a kind byte, which the Rust's enum cannot hold",
        || {
            [0, 1, 6, 7, 254, 255, 256, 257, u32::MAX]
                .map(|code| DofEntityKind::from_code(code).is_ok())
        },
    );
}

fn bits_past_the_length() {
    line(
        "7a",
        "mask of 3 with bits 3 and 63 (hand-made): count_ones, is_empty, indices, contains(3)",
        "12",
        || {
            let mask = stray();
            (
                mask.count_ones(),
                mask.is_empty(),
                mask.indices(),
                mask.contains(3),
            )
        },
    );
    line("7b", "close_to_field_blocks of it: words", "12", || {
        close_to_field_blocks(&one_block(3), &stray()).map(|mask| mask.words)
    });
    line(
        "7c",
        "extract_local_submatrix_pattern on it: members",
        "12",
        || extract_local_submatrix_pattern(&chain(), &stray()).map(|pattern| pattern.global_nodes),
    );
    line(
        "7d",
        "grow_undirected_region from it, 2 hops: region words, statistics",
        "12",
        || {
            grow_undirected_region(&chain(), &stray(), 2)
                .map(|growth| (growth.region.words, growth.stats))
        },
    );
    line(
        "7e",
        "grow_field_aware_region from it, 2 hops: region words, statistics",
        "12",
        || {
            grow_field_aware_region(&chain(), &one_block(3), &stray(), 2)
                .map(|growth| (growth.region.words, growth.stats))
        },
    );
    line("7f", "region_multiplicity(3, [it])", "12", || {
        region_multiplicity(3, &[stray()]).map(|_| "accepted")
    });
}

fn wrong_word_count() {
    line(
        "8a",
        "mask of 65 with one word (hand-made): contains(64)",
        "11",
        || hand_made(65, &[1]).contains(64),
    );
    line(
        "8b",
        "close_to_field_blocks of it, one block of 65: words",
        "11",
        || close_to_field_blocks(&one_block(65), &hand_made(65, &[1])).map(|mask| mask.words),
    );
    line(
        "8c",
        "union_assign of a mask of 65, words 1, 1, with one of a single word 2 (hand-made): words",
        "11",
        || {
            let mut mask = hand_made(65, &[1, 1]);
            mask.union_assign(&hand_made(65, &[2])).map(|()| mask.words)
        },
    );
    line(
        "8d",
        "grow_undirected_region, mask of 3 with words 1, 1 (hand-made), 1 hop: region words",
        "11",
        || {
            grow_undirected_region(&chain(), &hand_made(3, &[1, 1]), 1)
                .map(|growth| growth.region.words)
        },
    );
}

fn hand_made(len: usize, words: &[u64]) -> DofMask {
    DofMask {
        len,
        words: words.to_vec(),
    }
}

/// Three nodes, none of them set, and two bits past them.
fn stray() -> DofMask {
    hand_made(3, &[1 << 3 | 1 << 63])
}

fn one_block(components: u32) -> FieldAwareDofLayout {
    let block = DofBlock {
        entity_kind: DofEntityKind::Node,
        entity_id: 0,
        field_id: 0,
        components,
    };
    FieldAwareDofLayout::new(vec![block]).unwrap()
}

/// Entries (0,1) and (1,2), side 3.
fn chain() -> AbtmDualTopology {
    let matrix = Csr32Matrix::new(3, 3, vec![0, 1, 2, 2], vec![1, 2], vec![1.0; 2]).unwrap();
    AbtmDualTopology::from_csr32(&matrix).unwrap()
}
