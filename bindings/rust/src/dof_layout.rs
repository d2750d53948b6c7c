//! Blocks of unknowns: which nodes belong to one peak.

use std::ops::Range;

use crate::lend::{ask, mask_words};
use crate::{DofMask, Refusal};

/// Why a question about a layout is not refused.
const ACCEPTED: &str = "the lists of a layout were accepted when it was made";

/// What a block belongs to, by the original's codes.
#[repr(u32)]
#[derive(Clone, Copy, Debug, PartialEq, Eq, PartialOrd, Ord)]
pub enum DofEntityKind {
    Node = 1,
    Edge = 2,
    Face = 3,
    Element = 4,
    Multiplier = 5,
    Constraint = 6,
    Other = 255,
}

impl DofEntityKind {
    /// Refused by 17.
    pub fn from_code(code: u32) -> Result<Self, Refusal> {
        let kind = ask!(hybit_kind_of(code))?;
        Ok(match kind.value {
            1 => Self::Node,
            2 => Self::Edge,
            3 => Self::Face,
            4 => Self::Element,
            5 => Self::Multiplier,
            6 => Self::Constraint,
            _ => Self::Other,
        })
    }
}

/// The components of one entity in one field; they take consecutive nodes.
#[derive(Clone, Copy, Debug, PartialEq, Eq)]
pub struct DofBlock {
    pub entity_kind: DofEntityKind,
    pub entity_id: u64,
    pub field_id: u32,
    pub components: u32,
}

/// A node as a component of a block.
#[derive(Clone, Copy, Debug, PartialEq, Eq)]
pub struct DofAddress {
    pub block_index: usize,
    pub component: u32,
}

/// All blocks in the order of their nodes, from node 0.
#[derive(Clone, Debug, PartialEq, Eq)]
pub struct FieldAwareDofLayout {
    blocks: Vec<DofBlock>,
    // The same blocks as the lists that the port takes.
    entity_kinds: Vec<u8>,
    entity_ids: Vec<u64>,
    field_ids: Vec<u32>,
    components: Vec<u32>,
    offsets: Vec<u64>,
}

impl FieldAwareDofLayout {
    /// Refused by 14, 15, 16, 1.
    pub fn new(blocks: Vec<DofBlock>) -> Result<Self, Refusal> {
        Self::from_lists(
            blocks.iter().map(|block| block.entity_kind as u8).collect(),
            blocks.iter().map(|block| block.entity_id).collect(),
            blocks.iter().map(|block| block.field_id).collect(),
            blocks.iter().map(|block| block.components).collect(),
        )
    }

    /// From the blocks as four lists, kinds by their codes. Refused by 14, 11, 17, 15, 16, 1.
    pub fn from_lists(
        entity_kinds: Vec<u8>,
        entity_ids: Vec<u64>,
        field_ids: Vec<u32>,
        components: Vec<u32>,
    ) -> Result<Self, Refusal> {
        let mut offsets = vec![0; entity_kinds.len() + 1];
        ask!(hybit_layout_new(
            &entity_kinds,
            &entity_ids,
            &field_ids,
            &components,
            &mut offsets
        ))?;
        Self::of_accepted(entity_kinds, entity_ids, field_ids, components, offsets)
    }

    /// A layout that was stored with its offsets. Refused as by `from_lists`, then by 26.
    pub fn from_parts(
        entity_kinds: Vec<u8>,
        entity_ids: Vec<u64>,
        field_ids: Vec<u32>,
        components: Vec<u32>,
        offsets: Vec<u64>,
    ) -> Result<Self, Refusal> {
        ask!(hybit_layout_check(
            &entity_kinds,
            &entity_ids,
            &field_ids,
            &components,
            &offsets
        ))?;
        Self::of_accepted(entity_kinds, entity_ids, field_ids, components, offsets)
    }

    fn of_accepted(
        entity_kinds: Vec<u8>,
        entity_ids: Vec<u64>,
        field_ids: Vec<u32>,
        components: Vec<u32>,
        offsets: Vec<u64>,
    ) -> Result<Self, Refusal> {
        let block = |place: usize| {
            Ok(DofBlock {
                entity_kind: DofEntityKind::from_code(entity_kinds[place].into())?,
                entity_id: entity_ids[place],
                field_id: field_ids[place],
                components: components[place],
            })
        };
        Ok(Self {
            blocks: (0..entity_kinds.len())
                .map(block)
                .collect::<Result<_, _>>()?,
            entity_kinds,
            entity_ids,
            field_ids,
            components,
            offsets,
        })
    }

    /// How many nodes there are: the last offset.
    pub fn total_dofs(&self) -> u64 {
        *self.offsets.last().expect(ACCEPTED)
    }

    pub fn blocks(&self) -> &[DofBlock] {
        &self.blocks
    }

    pub fn entity_kinds(&self) -> &[u8] {
        &self.entity_kinds
    }

    pub fn entity_ids(&self) -> &[u64] {
        &self.entity_ids
    }

    pub fn field_ids(&self) -> &[u32] {
        &self.field_ids
    }

    pub fn components(&self) -> &[u32] {
        &self.components
    }

    /// The first node of each block, then the total.
    pub fn offsets(&self) -> &[u64] {
        &self.offsets
    }

    /// The nodes of a block, from its offset to the next; none past the last.
    pub fn block_range(&self, index: usize) -> Option<Range<u64>> {
        let end = *self.offsets.get(index.checked_add(1)?)?;
        Some(self.offsets[index]..end)
    }

    /// The block of a node; none past the last. The port checks the whole layout before it looks.
    pub fn locate(&self, dof: u64) -> Option<DofAddress> {
        let answer = ask!(hybit_layout_locate(layout self, dof)).expect(ACCEPTED);
        answer.present.then_some(DofAddress {
            block_index: answer.first as usize,
            component: answer.second as u32,
        })
    }

    /// Refused by 18 unless both sides are the total.
    pub fn validate_square_matrix_size(&self, nrows: usize, ncols: usize) -> Result<(), Refusal> {
        ask!(hybit_layout_validate_square_matrix_size(layout self, nrows, ncols))?;
        Ok(())
    }

    /// The nodes of a field. Nothing refuses this; the original's type is kept.
    pub fn field_mask(&self, field_id: u32) -> Result<DofMask, Refusal> {
        let len = self.total_dofs() as usize;
        let mut words = mask_words(len);
        ask!(hybit_layout_field_mask(layout self, field_id, &mut words))?;
        Ok(DofMask::written(len, words))
    }
}
