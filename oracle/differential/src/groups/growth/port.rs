//! The port's answers.

use super::{Call, Lent};
use crate::answer::Answer;
use crate::groups::layout::Layout;
use crate::groups::mask::Mask;
use crate::groups::topology::Topology;
use crate::port::{on_topology, port};

/// Lends a layout, then what else the function takes.
macro_rules! on_layout {
    ($function:ident, $layout:expr, $($more:tt)*) => {
        port!($function(
            [$layout.blocks.kinds],
            [$layout.blocks.ids],
            [$layout.blocks.fields],
            [$layout.blocks.components],
            [$layout.offsets],
            $($more)*
        ))
        .into()
    };
}

pub fn answer(call: &mut Call) -> Answer {
    match call {
        Call::Grow {
            topology,
            seeds,
            hops,
            lent,
        } => on_topology!(
            hybit_grow_undirected_region,
            topology,
            seeds.len,
            [seeds.words],
            *hops,
            [lent.region],
            [lent.frontier],
            [lent.scratch]
        ),
        Call::Multiplicity { regions, counts } => port!(hybit_region_multiplicity(
            regions.node_count,
            regions.region_count,
            [regions.words],
            [counts]
        ))
        .into(),
        Call::Weight {
            regions,
            region,
            node,
        } => port!(hybit_weight(
            regions.node_count,
            regions.region_count,
            [regions.words],
            *region,
            *node
        ))
        .into(),
        Call::Close {
            layout,
            selected,
            out,
        } => on_layout!(
            hybit_close_to_field_blocks,
            layout,
            selected.len,
            [selected.words],
            [out]
        ),
        Call::GrowField {
            topology,
            layout,
            seeds,
            hops,
            lent,
        } => grow_field(topology, layout, seeds, *hops, lent),
        Call::Owners {
            layout,
            dof_owners,
            ranks,
            out,
        } => on_layout!(
            hybit_field_block_owners,
            layout,
            [dof_owners],
            *ranks,
            [out]
        ),
    }
}

fn grow_field(
    topology: &mut Topology,
    layout: &mut Layout,
    seeds: &mut Mask,
    hops: u64,
    lent: &mut Lent,
) -> Answer {
    on_topology!(
        hybit_grow_field_aware_region,
        topology,
        [layout.blocks.kinds],
        [layout.blocks.ids],
        [layout.blocks.fields],
        [layout.blocks.components],
        [layout.offsets],
        seeds.len,
        [seeds.words],
        hops,
        [lent.region],
        [lent.frontier],
        [lent.scratch]
    )
}
