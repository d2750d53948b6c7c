//! Prepared regions: by one call, and by a call for each step.

use hybit_matrix::{
    Csr32Matrix, DofMask, FieldAwareDofLayout, PreparedFieldAwareLocalRegion,
    PreparedFieldAwareTopology, PreparedRegion, Refusal, prepare_region,
};

use super::Answered::{Nothing, U32, U64};
use super::local::{counts_of_pattern, of_plan, plan_lists};
use super::regions::of_field;
use super::topologies::lists;
use super::{Case, Compared, demand, numbers};
use crate::answer::Answer;
use crate::groups::prepared::{Call, Owners, Prepare};

pub fn compare(call: &Call, case: &Case) -> Compared {
    match call {
        Call::Prepare(call) => prepare(call, case),
        Call::Owners(call) => owners(call, case),
    }
}

fn prepare(call: &Prepare, case: &Case) -> Compared {
    let (matrix, layout) = (case.matrix(&call.matrix)?, case.layout(&call.layout)?);
    let seeds = case.mask(&call.seeds)?;
    let hops = call.hops as usize;
    let single = prepare_region(&matrix, &layout, &seeds, hops);
    let steps = in_steps(&matrix, &layout, &seeds, hops);
    demand(alike(&single, &steps), "a region that is prepared in steps")?;
    let single = case.accepted(single)?;
    let local = single.local();
    let values = case.accepted(local.gather_values(matrix.values()))?;
    let bits: Vec<u64> = values.into_iter().map(f64::to_bits).collect();
    let [a, b, c] = lists(single.topology().row_topology());
    let [d, e, f] = lists(single.topology().column_topology());
    let [nodes, row_ptr, col_idx, source_ptr, sources] = plan_lists(local.numeric_plan());
    let (region, frontier) = (U64(local.region().words()), U64(local.frontier().words()));
    case.told(
        answer(&single),
        &[
            a,
            b,
            c,
            d,
            e,
            f,
            Nothing,
            Nothing,
            region,
            frontier,
            Nothing,
            nodes,
            row_ptr,
            col_idx,
            source_ptr,
            sources,
            U64(&bits),
        ],
    )
}

fn in_steps(
    matrix: &Csr32Matrix,
    layout: &FieldAwareDofLayout,
    seeds: &DofMask,
    hops: usize,
) -> Result<PreparedFieldAwareLocalRegion, Refusal> {
    PreparedFieldAwareTopology::new(matrix, layout)?.prepare_region(seeds, hops)
}

fn alike(
    single: &Result<PreparedRegion, Refusal>,
    steps: &Result<PreparedFieldAwareLocalRegion, Refusal>,
) -> bool {
    match (single, steps) {
        (Ok(single), Ok(steps)) => {
            let single = single.local();
            single.region() == steps.region()
                && single.frontier() == steps.frontier()
                && single.growth_stats() == steps.growth_stats()
                && single.numeric_plan() == steps.numeric_plan()
        }
        (Err(single), Err(steps)) => single == steps,
        _ => false,
    }
}

fn answer(single: &PreparedRegion) -> Answer {
    let (topology, stats) = (single.topology(), single.topology_stats());
    let local = single.local();
    let mut all = vec![
        topology.row_topology().nonempty_words(),
        topology.column_topology().nonempty_words(),
        topology.row_topology().structural_nnz(),
        stats.nrows,
        stats.ncols,
        stats.structural_nnz,
        stats.row_metadata_bytes,
        stats.column_metadata_bytes,
    ];
    all.extend(of_field(local.growth_stats()));
    all.extend(counts_of_pattern(local.pattern().stats()));
    all.extend(of_plan(local.numeric_plan_stats()));
    numbers(&all)
}

fn owners(call: &Owners, case: &Case) -> Compared {
    let (matrix, layout) = (case.matrix(&call.matrix)?, case.layout(&call.layout)?);
    let topology = case.accepted(PreparedFieldAwareTopology::new(&matrix, &layout))?;
    let owners = topology.validate_block_owners(&call.dof_owners, call.ranks);
    let owners = case.accepted(owners)?;
    case.told(numbers(&[owners.len()]), &[U32(&owners)])
}
