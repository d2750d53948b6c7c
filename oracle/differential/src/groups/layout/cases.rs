//! What the cases share, and those at the edges.

use super::{Blocks, Call, Layout, Question, offsets, questions, small};

/// The codes of all kinds.
pub const KINDS: [u8; 7] = [1, 2, 3, 4, 5, 6, 255];

#[derive(Clone, Copy)]
pub struct Block {
    pub kind: u8,
    pub id: u64,
    pub field: u32,
    pub components: u32,
}

pub fn edges(offer: &mut dyn FnMut(Call)) {
    for code in KINDS.map(u32::from).into_iter().chain([0, 7, 254, 257]) {
        offer(Call::KindOf(code));
    }
    small::faults_of_second(offer);
    for components in [&[1][..], &[2, 1], &[64, 1], &[63, 2], &[1, 64, 65], &[130]] {
        let layout = built(&numbered(components));
        questions::one_each(&layout, offer);
        for dof in [0, 1, 62, 63, 64, 65, 129, 130, u64::MAX] {
            offer(Call::Asked(layout.clone(), Question::Locate(dof)));
        }
        for offsets in offsets::damaged(&layout.offsets) {
            let blocks = layout.blocks.clone();
            questions::one_each(&Layout { blocks, offsets }, offer);
        }
    }
}

pub fn blocks(list: &[Block]) -> Blocks {
    Blocks {
        kinds: list.iter().map(|block| block.kind).collect(),
        ids: list.iter().map(|block| block.id).collect(),
        fields: list.iter().map(|block| block.field).collect(),
        components: list.iter().map(|block| block.components).collect(),
    }
}

/// The blocks with their running totals, whether they are right or not.
pub fn built(list: &[Block]) -> Layout {
    Layout::of(blocks(list))
}

impl Layout {
    /// These blocks with their running totals.
    pub fn of(blocks: Blocks) -> Self {
        let mut total = 0;
        let mut offsets = vec![0];
        for &components in &blocks.components {
            total += u64::from(components);
            offsets.push(total);
        }
        Self { blocks, offsets }
    }
}

/// Blocks of kind 1 with ids by position, of fields 0, 1, 0, 1 and so on.
pub fn numbered(components: &[u32]) -> Vec<Block> {
    (0..)
        .zip(components)
        .map(|(id, &components)| Block {
            kind: 1,
            id,
            field: id as u32 % 2,
            components,
        })
        .collect()
}
