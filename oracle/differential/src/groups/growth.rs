//! The calls on regions: growing one, closing one to blocks, counting several,
//! and the owners of blocks.

mod cases;
mod examples;
mod expected;
mod faults;
mod fields;
mod fixed;
mod limits;
mod orders;
mod port;
mod random;
mod regions;
pub mod rooms;
mod small;

pub use cases::{
    BORDERS, FAR, blocks_of, chain, cuts, faulty_part, mask_of, pairs_of, wrong_layouts,
    wrong_masks,
};
pub use examples::refused_layouts;
pub use expected::{opened as opened_layout, without_words};
pub use fields::cut;
pub use fixed::{any_way, graphs, one_way, seeds};
pub use random::{
    hops as random_hops, layout as random_layout, random_seeds, random_side, random_topology,
};
pub use small::{each_graph, each_mask};

use super::layout::Layout;
use super::mask::Mask;
use super::topology::Topology;
use super::{Function, GroupCall, GroupCalls};
use crate::answer::Answer;
use crate::parts::List::{U8, U32, U64};
use crate::parts::Parts;
use crate::rng::Rng;

/// The three masks that a growth is lent.
#[derive(Clone, PartialEq)]
pub struct Lent {
    pub region: Vec<u64>,
    pub frontier: Vec<u64>,
    pub scratch: Vec<u64>,
}

/// Several masks of one length, one after the other.
#[derive(Clone, PartialEq)]
pub struct Regions {
    pub node_count: usize,
    pub region_count: usize,
    pub words: Vec<u64>,
}

#[derive(Clone, PartialEq)]
pub enum Call {
    Grow {
        topology: Topology,
        seeds: Mask,
        hops: u64,
        lent: Lent,
    },
    Multiplicity {
        regions: Regions,
        counts: Vec<u32>,
    },
    Weight {
        regions: Regions,
        region: u64,
        node: u64,
    },
    Close {
        layout: Layout,
        selected: Mask,
        out: Vec<u64>,
    },
    GrowField {
        topology: Topology,
        layout: Layout,
        seeds: Mask,
        hops: u64,
        lent: Lent,
    },
    Owners {
        layout: Layout,
        dof_owners: Vec<u32>,
        ranks: u32,
        out: Vec<u32>,
    },
}

impl GroupCalls for Call {
    const NAME: &'static str = "growth";
    const FUNCTIONS: &'static [Function] = &[
        ("hybit_grow_undirected_region", &[1, 9, 10, 11, 12, 25]),
        ("hybit_region_multiplicity", &[1, 11, 12, 25]),
        ("hybit_weight", &[1, 11, 12, 13]),
        (
            "hybit_close_to_field_blocks",
            &[1, 11, 12, 14, 15, 16, 17, 25, 26],
        ),
        (
            "hybit_grow_field_aware_region",
            &[1, 9, 11, 12, 14, 15, 16, 17, 18, 25, 26],
        ),
        (
            "hybit_field_block_owners",
            &[1, 11, 14, 15, 16, 17, 19, 20, 21, 25, 26],
        ),
    ];

    fn examples() -> Vec<(Self, Answer)> {
        examples::examples()
    }

    fn fixed(run: &mut dyn FnMut(Self)) {
        fixed::run(run);
        fields::run(run);
        regions::run(run);
        faults::run(run);
        orders::run(run);
        limits::run(run);
        small::run(run);
    }

    fn random(rng: &mut Rng) -> Self {
        random::random(rng)
    }

    fn edges(offer: &mut dyn FnMut(Self)) {
        cases::edges(offer);
    }
}

impl GroupCall for Call {
    fn place(&self) -> usize {
        match self {
            Call::Grow { .. } => 0,
            Call::Multiplicity { .. } => 1,
            Call::Weight { .. } => 2,
            Call::Close { .. } => 3,
            Call::GrowField { .. } => 4,
            Call::Owners { .. } => 5,
        }
    }

    /// Numbers in the order of the function's own parameters. Lists of one kind
    /// stand at one place in all calls: two sides, a layout, a mask, three
    /// masks that are written, and a list of u32 that is. Where there is no
    /// topology the owners stand in place of its first list, and the words of
    /// several regions in place of its third.
    fn parts(&mut self) -> Parts<'_> {
        match self {
            Call::Grow {
                topology,
                seeds,
                hops,
                lent,
            } => {
                let parts = seeds_of(seeds, topology.parts().absent(5));
                lent.add_to(parts.number("hops", *hops))
            }
            Call::Multiplicity { regions, counts } => regions
                .parts()
                .absent(9)
                .absent_written(3)
                .written("counts", U32(counts)),
            Call::Weight {
                regions,
                region,
                node,
            } => regions
                .parts()
                .number("region", *region)
                .number("node", *node),
            Call::Close {
                layout,
                selected,
                out,
            } => {
                let parts = layout_of(layout, Parts::new().absent(6));
                seeds_of(selected, parts).written("out", U64(out))
            }
            Call::GrowField {
                topology,
                layout,
                seeds,
                hops,
                lent,
            } => {
                let parts = seeds_of(seeds, layout_of(layout, topology.parts()));
                lent.add_to(parts.number("hops", *hops))
            }
            Call::Owners {
                layout,
                dof_owners,
                ranks,
                out,
            } => {
                let parts = Parts::new().read("dof_owners", U32(dof_owners)).absent(5);
                layout_of(layout, parts)
                    .number("ranks", u64::from(*ranks))
                    .absent(1)
                    .absent_written(3)
                    .written("out", U32(out))
            }
        }
    }

    fn ask_port(&mut self) -> Answer {
        port::answer(self)
    }

    fn expect(&mut self) -> Result<Answer, Answer> {
        expected::answer(self)
    }

    /// Of a growth how many hops were made, and whether the last found nothing;
    /// of a wrong length (11) which list; of lists that are too short (25)
    /// which; of a fault which side has it.
    fn told_apart(&self, answer: Answer) -> u64 {
        cases::told_apart(self, answer)
    }
}

pub fn seeds_of<'call>(mask: &'call mut Mask, parts: Parts<'call>) -> Parts<'call> {
    parts
        .number("len", mask.len as u64)
        .read("words", U64(&mut mask.words))
}

pub fn layout_of<'call>(layout: &'call mut Layout, parts: Parts<'call>) -> Parts<'call> {
    let Layout { blocks, offsets } = layout;
    parts
        .read("kinds", U8(&mut blocks.kinds))
        .read("ids", U64(&mut blocks.ids))
        .read("fields", U32(&mut blocks.fields))
        .read("components", U32(&mut blocks.components))
        .read("offsets", U64(offsets))
}

impl Regions {
    fn parts(&mut self) -> Parts<'_> {
        Parts::new()
            .number("node_count", self.node_count as u64)
            .number("region_count", self.region_count as u64)
            .absent(2)
            .read("words", U64(&mut self.words))
    }
}

impl Lent {
    pub fn add_to<'call>(&'call mut self, parts: Parts<'call>) -> Parts<'call> {
        parts
            .written("region", U64(&mut self.region))
            .written("frontier", U64(&mut self.frontier))
            .written("scratch", U64(&mut self.scratch))
    }
}
