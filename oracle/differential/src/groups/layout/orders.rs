//! Blocks in the orders in which callers number them.

use super::cases::{Block, KINDS};
use crate::rng::Rng;

#[derive(Clone, Copy)]
pub enum Order {
    Rising,
    Falling,
    Shuffled,
    /// All ids of the first field, then all of the second, and so on.
    FieldMajor,
    /// All fields of the first id, then all of the second, and so on.
    EntityMajor,
    /// All ids of the first kind, then all of the second, and so on.
    KindMajor,
    /// Rising runs of one field, the ids of one between those of another.
    Runs,
}

pub const ORDERS: [Order; 7] = [
    Order::Rising,
    Order::Falling,
    Order::Shuffled,
    Order::FieldMajor,
    Order::EntityMajor,
    Order::KindMajor,
    Order::Runs,
];

/// Sizes that make blocks start and end at the borders of words.
const BORDERS: [u32; 12] = [1, 2, 61, 62, 63, 64, 65, 66, 127, 128, 129, 130];

/// So many fields, kinds or runs in the orders that have several.
const PARTS: usize = 3;

/// Blocks of one component, no two of them alike.
pub fn ordered(rng: &mut Rng, order: Order, count: usize) -> Vec<Block> {
    let first_id = rng.pick(&[0, 0, 1 << 32, (1 << 63) - 2, u64::MAX - 4]);
    let first_field = rng.pick(&[0, 0, u32::MAX - 1]);
    let mut list: Vec<Block> = (0..count)
        .map(|place| {
            let (kind, id, field) = key(order, place, count);
            Block {
                kind,
                id: first_id.wrapping_add(id as u64),
                field: first_field.wrapping_add(field as u32),
                components: 1,
            }
        })
        .collect();
    if let Order::Shuffled = order {
        rng.shuffle(&mut list);
    }
    list
}

/// Kind, id and field; id and field are counted from the first.
fn key(order: Order, place: usize, count: usize) -> (u8, usize, usize) {
    let part = count.div_ceil(PARTS);
    let (major, minor) = (place / part, place % part);
    match order {
        Order::Rising => (1, place, 0),
        Order::Falling => (1, count - 1 - place, 0),
        Order::FieldMajor => (1, minor, major),
        Order::Shuffled | Order::EntityMajor => (1, place / PARTS, place % PARTS),
        Order::KindMajor => (KINDS[major * PARTS], minor, 0),
        Order::Runs => (1, minor * PARTS + major, 0),
    }
}

/// Gives every block a size: up to 3, up to 130, or one near a word's border.
pub fn resize(rng: &mut Rng, list: &mut [Block]) {
    let style = rng.below(4);
    for block in list {
        block.components = match style {
            0 => 1,
            1 => 1 + rng.below(3) as u32,
            2 => 1 + rng.below(130) as u32,
            _ => rng.pick(&BORDERS),
        };
    }
}

/// Gives the block at `at` the key of the one at `from`.
pub fn make_twin(list: &mut [Block], from: usize, at: usize) {
    let components = list[at].components;
    list[at] = Block {
        components,
        ..list[from]
    };
}

/// The same, but for one bit of the id or field, or for the kind.
pub fn make_near_twin(rng: &mut Rng, list: &mut [Block], from: usize, at: usize) {
    make_twin(list, from, at);
    match rng.below(3) {
        0 => list[at].kind = rng.pick(&KINDS),
        1 => list[at].id ^= 1 << rng.below(64),
        _ => list[at].field ^= 1 << rng.below(32),
    }
}
