//! The layouts that are measured, as the port and as the Rust take them.

use hybit_original::{DofBlock, DofEntityKind, FieldAwareDofLayout};

use crate::shapes::Chance;

pub struct Lists {
    pub kinds: Vec<u8>,
    pub ids: Vec<u64>,
    pub fields: Vec<u32>,
    pub components: Vec<u32>,
    pub offsets: Vec<u64>,
}

impl Lists {
    pub fn of(blocks: &[DofBlock]) -> Self {
        let starts = blocks.iter().scan(0, |end, block| {
            *end += u64::from(block.components);
            Some(*end)
        });
        Self {
            kinds: blocks.iter().map(|block| block.entity_kind as u8).collect(),
            ids: blocks.iter().map(|block| block.entity_id).collect(),
            fields: blocks.iter().map(|block| block.field_id).collect(),
            components: blocks.iter().map(|block| block.components).collect(),
            offsets: [0].into_iter().chain(starts).collect(),
        }
    }
}

pub fn layout(blocks: &[DofBlock]) -> FieldAwareDofLayout {
    FieldAwareDofLayout::new(blocks.to_vec()).expect("an accepted layout")
}

/// Blocks of one size over so many nodes, the last one smaller if need be.
pub fn over(nodes: usize, size: usize) -> Vec<DofBlock> {
    let starts = (0..nodes).step_by(size).enumerate();
    starts
        .map(|(place, start)| block(place as u64, 0, size.min(nodes - start)))
        .collect()
}

/// Blocks of one node in two fields: all of the first, then all of the second.
pub fn field_major(nodes: usize) -> Vec<DofBlock> {
    let entities = nodes / 2;
    (0..2 * entities)
        .map(|place| block((place % entities) as u64, place / entities, 1))
        .collect()
}

/// The same blocks in no order.
pub fn shuffled(nodes: usize) -> Vec<DofBlock> {
    let mut blocks = field_major(nodes);
    Chance(1).shuffle(&mut blocks);
    blocks
}

/// Blocks of one node, their ids spread over all 64 bits.
pub fn random_ids(nodes: usize) -> Vec<DofBlock> {
    let mut chance = Chance(1);
    (0..nodes).map(|_| block(chance.next(), 0, 1)).collect()
}

fn block(entity: u64, field: usize, components: usize) -> DofBlock {
    DofBlock {
        entity_kind: DofEntityKind::Node,
        entity_id: entity,
        field_id: field as u32,
        components: components as u32,
    }
}
