//! Runs of growths, each from the region that the last accepted one gave, then
//! pattern, plan and gather of the region that they end with.
//!
//! What is expected comes from one growth of the Rust by the total of the
//! accepted counts, from the first seeds; a total past 64 bits is a growth by
//! the largest count. So it is after each of them, not after the last alone.

mod fixed;
mod random;

pub use fixed::{examples, fixed};
pub use random::random;

use super::cases::topology_of;
use super::{Call, Gather, PatternLent, PlanLent, expected};
use crate::answer::Answer;
use crate::groups::GroupCall;
use crate::groups::csr32::Matrix;
use crate::groups::growth::{Call as GrowthCall, Lent};
use crate::groups::layout::{Blocks, Call as LayoutCall, Layout};
use crate::groups::mask::{Mask, words_needed};
use crate::groups::topology::{
    Call as TopologyCall, Lent as SideLent, Side, Topology, both_lent, of_both,
};
use crate::parts::List::{U8, U32, U64};
use crate::parts::Parts;

#[derive(Clone, PartialEq)]
pub struct Growth {
    pub hops: u64,
    pub lent: Lent,
}

#[derive(Clone, PartialEq)]
pub struct Run {
    pub matrix: Matrix,
    /// Of growths by whole blocks; plain ones have none.
    pub blocks: Option<Blocks>,
    pub seeds: Mask,
    pub growths: Vec<Growth>,
    pub pattern: PatternLent,
    pub plan: PlanLent,
    /// By their bits.
    pub gathered: Vec<u64>,
    /// The numbers that the calls answered with, one after the other, and what
    /// pattern, plan and gather told; none yet.
    pub numbers: Vec<u32>,
    pub told: Vec<u64>,
}

impl Run {
    pub fn parts(&mut self) -> Parts<'_> {
        let mut parts = self.matrix.parts();
        if let Some(blocks) = &mut self.blocks {
            parts = parts
                .read("kinds", U8(&mut blocks.kinds))
                .read("ids", U64(&mut blocks.ids))
                .read("fields", U32(&mut blocks.fields))
                .read("components", U32(&mut blocks.components));
        }
        parts = super::region_of(&mut self.seeds, parts);
        for growth in &mut self.growths {
            parts = parts
                .number("hops", growth.hops)
                .written("region", U64(&mut growth.lent.region))
                .written("frontier", U64(&mut growth.lent.frontier))
                .written("scratch", U64(&mut growth.lent.scratch));
        }
        self.plan
            .add_to(self.pattern.add_to(parts))
            .written("gathered (bits)", U64(&mut self.gathered))
            .written("numbers", U32(&mut self.numbers))
            .written("told", U64(&mut self.told))
    }

    /// Builds topology and layout, then grows and goes on with the port's own
    /// answers.
    pub fn ask_port(&mut self) -> Answer {
        let topology = self.built_topology();
        let layout = self.built_layout();
        let mut region = self.seeds.clone();
        for growth in &mut self.growths {
            let mut call = growth.call(&topology, layout.as_ref(), &region);
            let number = call.ask_port().number;
            growth.lent = lent_of(call);
            self.numbers.push(number);
            if number == 0 {
                region.words = front(&growth.lent.region, words_needed(region.len));
            }
        }
        self.finish(&topology, &region, Call::ask_port)
    }

    pub fn expect(&mut self) -> Answer {
        let topology = topology_of(&self.matrix);
        let layout = self.blocks.clone().map(Layout::of);
        self.numbers.resize(1 + usize::from(layout.is_some()), 0);
        let mut region = self.seeds.clone();
        let mut total = 0_u64;
        for growth in &mut self.growths {
            let mut one = growth.call(&topology, layout.as_ref(), &self.seeds);
            let reached = total.saturating_add(growth.hops);
            *hops_of(&mut one) = reached;
            let number = one.expect().map_or_else(|refused| refused.number, |_| 0);
            growth.lent = lent_of(one);
            self.numbers.push(number);
            if number == 0 {
                total = reached;
                region.words = front(&growth.lent.region, words_needed(region.len));
                // "With h = 0 region and frontier are the closed seeds."
                if growth.hops == 0 {
                    growth.lent.frontier[..region.words.len()].copy_from_slice(&region.words);
                }
            }
        }
        self.finish(&topology, &region, |call| {
            expected::answer(call).unwrap_or_else(|refused| refused)
        })
    }

    /// Pattern, plan, and the gather of the matrix's values by that plan.
    fn finish(
        &mut self,
        topology: &Topology,
        region: &Mask,
        ask: impl Fn(&mut Call) -> Answer,
    ) -> Answer {
        let mut pattern = Call::Pattern {
            topology: topology.clone(),
            region: region.clone(),
            lent: self.pattern.clone(),
        };
        self.note(ask(&mut pattern));
        let mut plan = Call::Plan {
            topology: topology.clone(),
            matrix: self.matrix.clone(),
            region: region.clone(),
            lent: self.plan.clone(),
        };
        let answer = ask(&mut plan);
        self.note(answer);
        if let (Call::Pattern { lent: pattern, .. }, Call::Plan { lent: plan, .. }) =
            (pattern, plan)
        {
            self.pattern = pattern;
            self.plan = plan;
        }
        let [pairs, terms] = [answer.values[1], answer.values[2]].map(|count| count as usize);
        let mut gather = Call::Gather(Gather {
            source_ptr: front(&self.plan.source_ptr, pairs.saturating_add(1)),
            source_indices: front(&self.plan.source_indices, terms),
            source_value_len: self.matrix.values.len(),
            values: self.matrix.values.clone(),
            out: self.gathered.iter().copied().map(f64::from_bits).collect(),
        });
        self.note(ask(&mut gather));
        if let Call::Gather(Gather { out, .. }) = gather {
            self.gathered = out.into_iter().map(f64::to_bits).collect();
        }
        Answer::done()
    }

    fn note(&mut self, answer: Answer) {
        self.numbers.push(answer.number);
        self.told.extend(answer.values);
    }

    fn built_topology(&mut self) -> Topology {
        let out = both_lent(&of_both(&self.matrix));
        let mut call = TopologyCall::FromCsr32(self.matrix.clone(), out);
        let answer = call.ask_port();
        self.numbers.push(answer.number);
        let TopologyCall::FromCsr32(Matrix { nrows, ncols, .. }, out) = call else {
            unreachable!("the call that was made above");
        };
        let [row_words, column_words, pairs] = [0, 1, 2].map(|value| answer.values[value] as usize);
        let side = |nrows, ncols, lent: SideLent, words| Side {
            nrows,
            ncols,
            row_word_ptr: lent.row_word_ptr,
            word_indices: front(&lent.word_indices, words),
            masks: front(&lent.masks, words),
            structural_nnz: pairs,
        };
        Topology {
            rows: side(nrows, ncols, out.rows, row_words),
            columns: side(ncols, nrows, out.columns, column_words),
        }
    }

    fn built_layout(&mut self) -> Option<Layout> {
        let blocks = self.blocks.clone()?;
        let out = vec![77; blocks.kinds.len() + 1];
        let mut call = LayoutCall::New { blocks, out };
        self.numbers.push(call.ask_port().number);
        match call {
            LayoutCall::New { blocks, out } => Some(Layout {
                blocks,
                offsets: out,
            }),
            _ => None,
        }
    }
}

impl Growth {
    fn call(&self, topology: &Topology, layout: Option<&Layout>, seeds: &Mask) -> GrowthCall {
        let (topology, seeds, lent) = (topology.clone(), seeds.clone(), self.lent.clone());
        let hops = self.hops;
        match layout.cloned() {
            Some(layout) => GrowthCall::GrowField {
                topology,
                layout,
                seeds,
                hops,
                lent,
            },
            None => GrowthCall::Grow {
                topology,
                seeds,
                hops,
                lent,
            },
        }
    }
}

fn hops_of(call: &mut GrowthCall) -> &mut u64 {
    match call {
        GrowthCall::Grow { hops, .. } | GrowthCall::GrowField { hops, .. } => hops,
        _ => unreachable!("a growth"),
    }
}

fn lent_of(call: GrowthCall) -> Lent {
    match call {
        GrowthCall::Grow { lent, .. } | GrowthCall::GrowField { lent, .. } => lent,
        _ => unreachable!("a growth"),
    }
}

/// The first so many, or all if there are fewer.
fn front<T: Clone>(list: &[T], count: usize) -> Vec<T> {
    list[..count.min(list.len())].to_vec()
}
