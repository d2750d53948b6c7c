//! Layouts at the edges: kinds, limits, word borders, orders, large ones.

use super::cases::{Block, KINDS, built, numbered};
use super::orders::{ORDERS, Order, make_near_twin, make_twin, ordered, resize};
use super::{Call, Layout, offsets, questions};
use crate::expected::SIDE_LIMIT;
use crate::rng::Rng;

const LIMIT: u32 = SIDE_LIMIT as u32;

pub fn run(run: &mut dyn FnMut(Call)) {
    let mut rng = Rng::new(5);
    kinds(run);
    limits(&mut rng, run);
    word_borders(run);
    key_bits(run);
    for order in ORDERS {
        in_order(&mut rng, order, run);
        twins(&mut rng, order, run);
        damaged_lists(&mut rng, order, run);
    }
    shuffled(&mut rng, run);
    largest(run);
}

/// Every code up to 300 and far ones; every byte as the kind of the only and
/// of the second block.
fn kinds(run: &mut dyn FnMut(Call)) {
    for code in 0..=300 {
        run(Call::KindOf(code));
    }
    for shift in 8..32 {
        for low in [0, 1, 6, 7, 255] {
            run(Call::KindOf(1 << shift | low));
            run(Call::KindOf(u32::MAX << shift | low));
        }
    }
    for kind in 0..=255 {
        let mut list = numbered(&[2, 1]);
        list[1].kind = kind;
        questions::one_each(&built(&list), run);
        questions::one_each(&built(&list[1..]), run);
    }
}

/// Totals at and past the limit; sums that are small again in 32 bits; another
/// fault before, in and after the block that passes the limit.
fn limits(rng: &mut Rng, run: &mut dyn FnMut(Call)) {
    let mut all: Vec<Vec<u32>> = vec![
        vec![LIMIT],
        vec![LIMIT + 1],
        vec![LIMIT - 1],
        vec![LIMIT - 1, 1],
        vec![1, LIMIT - 1],
        vec![65_536; 16],
        vec![1_024; 1_024],
        vec![u32::MAX],
        vec![u32::MAX; 4],
        vec![1, u32::MAX],
        vec![u32::MAX, 1],
        vec![5, u32::MAX - 4, 1],
        vec![1 << 31, 1 << 31],
        vec![0, LIMIT + 1],
        vec![LIMIT + 1, 0],
        vec![LIMIT, 0],
    ];
    all.push((0..16).map(|at| 65_536 + at - 8).collect());
    for components in all {
        for more in [None, Some(1), Some(u32::MAX)] {
            let mut list = numbered(&components);
            list.extend(more.map(|components| Block {
                id: u64::MAX,
                components,
                ..list[0]
            }));
            at_limit(rng, &built(&list), run);
            let last = list.len() - 1;
            make_twin(&mut list, 0, last);
            questions::one_each(&built(&list), run);
        }
    }
}

fn at_limit(rng: &mut Rng, layout: &Layout, run: &mut dyn FnMut(Call)) {
    if questions::total(layout) <= u64::from(LIMIT) {
        questions::some(rng, layout, run);
    }
    questions::one_each(layout, run);
}

/// Two blocks of every size up to 130, and three of sizes near the borders.
fn word_borders(run: &mut dyn FnMut(Call)) {
    for first in 1..=130 {
        for second in 1..=130 {
            let layout = built(&numbered(&[first, second]));
            questions::mask(&layout, 0, run);
            questions::mask(&layout, 1, run);
        }
    }
    let sizes = [1, 2, 62, 63, 64, 65, 66, 127, 128, 129];
    for first in sizes {
        for second in sizes {
            for third in sizes {
                let layout = built(&numbered(&[first, second, third]));
                questions::mask(&layout, 0, run);
                questions::mask(&layout, 1, run);
            }
            questions::all(&built(&numbered(&[first, second])), run);
        }
    }
}

/// Two blocks whose keys differ in one bit of the id or of the field, in the
/// kind, or in two of these in a way that packing them together would hide.
fn key_bits(run: &mut dyn FnMut(Call)) {
    let first = Block {
        kind: 3,
        id: 0x8421_7ffe_0180_a55a,
        field: 0x1248_5aa5,
        components: 1,
    };
    let mut seconds = vec![first];
    for bit in 0..64 {
        let id = first.id ^ 1 << bit;
        seconds.push(Block { id, ..first });
        let field = first.field ^ 1 << (bit % 32);
        seconds.push(Block { field, ..first });
        seconds.push(Block { field, id, ..first });
        seconds.extend(KINDS.map(|kind| {
            let id = first.id ^ u64::from(kind ^ first.kind) << bit;
            Block { kind, id, ..first }
        }));
        seconds.extend(KINDS.map(|kind| {
            let field = first.field ^ u32::from(kind ^ first.kind) << (bit % 32);
            Block {
                kind,
                field,
                ..first
            }
        }));
    }
    for second in seconds {
        let between = Block {
            kind: 4,
            id: !first.id,
            ..first
        };
        questions::one_each(&built(&[first, second]), run);
        questions::one_each(&built(&[first, between, second]), run);
    }
    two_kinds(first, run);
}

fn two_kinds(block: Block, run: &mut dyn FnMut(Call)) {
    for first in KINDS {
        for second in KINDS {
            let list = [first, second].map(|kind| Block { kind, ..block });
            questions::one_each(&built(&list), run);
        }
    }
}

/// Layouts of some sizes with all questions, or with some if they are large.
fn in_order(rng: &mut Rng, order: Order, run: &mut dyn FnMut(Call)) {
    for count in [1, 2, 3, 7, 12, 20] {
        for _ in 0..4 {
            let mut list = ordered(rng, order, count);
            resize(rng, &mut list);
            questions::all(&built(&list), run);
        }
    }
    for count in [64, 65, 100, 300, 700] {
        let mut list = ordered(rng, order, count);
        resize(rng, &mut list);
        questions::some(rng, &built(&list), run);
    }
}

/// A block with the key of an earlier one, for every two places of 24, and
/// next to it, far away, and first against last in a longer layout. The same
/// with keys that differ in one part.
fn twins(rng: &mut Rng, order: Order, run: &mut dyn FnMut(Call)) {
    let short = ordered(rng, order, 24);
    let mut turn = 0;
    for at in 0..24 {
        for from in 0..at {
            turn += 1;
            let mut list = short.clone();
            make_twin(&mut list, from, at);
            questions::one(&built(&list), 6, run);
            questions::one(&built(&list), turn, run);
            for _ in 0..4 {
                let mut list = short.clone();
                make_near_twin(rng, &mut list, from, at);
                questions::one(&built(&list), 6, run);
            }
        }
    }
    let long = ordered(rng, order, 400);
    for (from, at) in [(0, 1), (198, 199), (398, 399), (0, 399), (1, 398), (7, 350)] {
        let mut list = long.clone();
        make_twin(&mut list, from, at);
        questions::one_each(&built(&list), run);
        make_near_twin(rng, &mut list, from, at);
        questions::one_each(&built(&list), run);
    }
}

/// Wrong offsets, and each block list empty, one short and one long.
fn damaged_lists(rng: &mut Rng, order: Order, run: &mut dyn FnMut(Call)) {
    for count in [1, 2, 5, 13, 70] {
        let mut list = ordered(rng, order, count);
        resize(rng, &mut list);
        let right = built(&list);
        for offsets in offsets::damaged(&right.offsets) {
            let blocks = right.blocks.clone();
            questions::one_each(&Layout { blocks, offsets }, run);
        }
        for length in [0, count - 1, count + 1] {
            let mut wrong = vec![right.clone(); 4];
            wrong[0].blocks.kinds.resize(length, 1);
            wrong[1].blocks.ids.resize(length, 99);
            wrong[2].blocks.fields.resize(length, 99);
            wrong[3].blocks.components.resize(length, 1);
            for layout in wrong {
                questions::one_each(&layout, run);
            }
        }
    }
}

/// A few thousand blocks in no order, without and with a twin.
fn shuffled(rng: &mut Rng, run: &mut dyn FnMut(Call)) {
    let mut list = ordered(rng, Order::Shuffled, 4_096);
    resize(rng, &mut list);
    questions::some(rng, &built(&list), run);
    for (from, at) in [(0, 4_095), (4_094, 4_095), (1_000, 3_000)] {
        let mut list = list.clone();
        make_twin(&mut list, from, at);
        questions::one_each(&built(&list), run);
    }
}

/// As many blocks as there can be, one more, and a twin of the first as the
/// last; ids rise in one field.
fn largest(run: &mut dyn FnMut(Call)) {
    let mut list = numbered(&vec![1; SIDE_LIMIT + 1]);
    for block in &mut list {
        block.field = 0;
    }
    questions::one(&built(&list), 0, run);
    list.pop();
    questions::one_each(&built(&list), run);
    make_twin(&mut list, 0, SIDE_LIMIT - 1);
    questions::one(&built(&list), 6, run);
}
