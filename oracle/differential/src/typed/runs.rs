//! Runs of growths, then pattern, plan and gather of the region that they end
//! with.

use hybit_matrix::{
    AbtmDualTopology, Csr32Matrix, DofMask, FieldAwareDofLayout, Refusal,
    extract_local_submatrix_pattern, grow_field_aware_region, grow_undirected_region,
    prepare_local_numeric_plan,
};

use super::{Case, Compared, demand};
use crate::answer::Answer;
use crate::groups::Call;
use crate::groups::local::{Call as LocalCall, PatternLent, Run};

pub fn compare(run: &Run, case: &Case) -> Compared {
    let Call::Local(LocalCall::Run(after)) = &case.expected.after else {
        unreachable!("what is expected of a run is a run");
    };
    let matrix = case.matrix(&run.matrix)?;
    let topology = case.accepted(AbtmDualTopology::from_csr32(&matrix))?;
    let blocks = run.blocks.clone().map(|blocks| {
        FieldAwareDofLayout::from_lists(blocks.kinds, blocks.ids, blocks.fields, blocks.components)
    });
    let layout = case.accepted(blocks.transpose())?;
    let mut region = case.mask(&run.seeds)?;
    let numbers = &after.numbers[1 + usize::from(layout.is_some())..];
    for (growth, number) in after.growths.iter().zip(numbers) {
        let grown = grown(&topology, layout.as_ref(), &region, growth.hops as usize);
        let [grown, frontier] = case.accepted(grown)?;
        // A growth that was lent too little is not gone on from.
        if *number == 0 {
            let same = growth.lent.region.starts_with(grown.words())
                && growth.lent.frontier.starts_with(frontier.words());
            demand(same, "a growth of a run")?;
            region = grown;
        }
    }
    let numbers = &numbers[after.growths.len()..];
    finish(after, numbers, (&topology, &matrix, &region), case)
}

fn grown(
    topology: &AbtmDualTopology,
    layout: Option<&FieldAwareDofLayout>,
    seeds: &DofMask,
    hops: usize,
) -> Result<[DofMask; 2], Refusal> {
    Ok(match layout {
        Some(layout) => {
            let grown = grow_field_aware_region(topology, layout, seeds, hops)?;
            [grown.region().clone(), grown.frontier().clone()]
        }
        None => {
            let grown = grow_undirected_region(topology, seeds, hops)?;
            [grown.region().clone(), grown.frontier().clone()]
        }
    })
}

/// Of pattern, plan and gather those that were lent enough.
fn finish(
    after: &Run,
    numbers: &[u32],
    (topology, matrix, region): (&AbtmDualTopology, &Csr32Matrix, &DofMask),
    case: &Case,
) -> Compared {
    let pattern = case.accepted(extract_local_submatrix_pattern(topology, region))?;
    let plan = case.accepted(prepare_local_numeric_plan(topology, matrix, region))?;
    demand(pattern == *plan.pattern(), "the patterns of a run")?;
    let lies_in = |lent: &PatternLent| {
        lent.global_nodes.starts_with(pattern.global_nodes())
            && lent.row_ptr.starts_with(pattern.row_ptr())
            && lent.col_idx.starts_with(pattern.col_idx())
    };
    demand(
        numbers[0] != 0 || lies_in(&after.pattern),
        "a run's pattern",
    )?;
    if numbers[1] == 0 {
        let lent = &after.plan;
        let same = lies_in(&lent.pattern)
            && lent.source_ptr.starts_with(plan.source_ptr())
            && lent.source_indices.starts_with(plan.source_indices());
        demand(same, "a run's plan")?;
    }
    let values = case.accepted(plan.gather_values(matrix.values()))?;
    let bits: Vec<u64> = values.into_iter().map(f64::to_bits).collect();
    let gathered = numbers[1] != 0 || numbers[2] != 0 || after.gathered.starts_with(&bits);
    demand(gathered, "a run's values")?;
    case.told(Answer::done(), &[])
}
