//! The lines of document 01's "Worked by hand", through the typed layer.

mod common;

use common::{blocks, chain, mask, matrix};
use hybit_matrix::{
    AbtmDualTopology, AbtmRegionGrowth, AbtmTopologyWord, Csr32Matrix, DofMask,
    PreparedFieldAwareTopology, close_to_field_blocks, grow_field_aware_region,
    grow_undirected_region, peak_job, prepare_local_numeric_plan, prepare_region,
    region_multiplicity, weight,
};

fn grown(seeds: &[usize], hops: usize) -> AbtmRegionGrowth {
    let topology = AbtmDualTopology::from_csr32(&chain()).unwrap();
    grow_undirected_region(&topology, &mask(3, seeds), hops).unwrap()
}

fn growth(seeds: &[usize], hops: usize) -> (Vec<usize>, Vec<usize>, usize) {
    let grown = grown(seeds, hops);
    (
        grown.region().indices(),
        grown.frontier().indices(),
        grown.stats().hops_completed,
    )
}

fn bits(values: &[f64]) -> Vec<u64> {
    values.iter().map(|value| value.to_bits()).collect()
}

#[test]
fn word_22() {
    let word = AbtmTopologyWord::new(0, 22);
    assert_eq!(word.rank(2).unwrap(), 1);
    assert_eq!(word.rank(64).unwrap(), 3);
    assert_eq!(word.rank(65).unwrap_err().number, 13);
    assert_eq!(word.select(2), Some(4));
    assert_eq!(word.select(3), None);
}

#[test]
fn plain_growth() {
    assert_eq!(growth(&[0], 0), (vec![0], vec![0], 0));
    assert_eq!(growth(&[0], 2), (vec![0, 1, 2], vec![2], 2));
    assert_eq!(growth(&[0], 3), (vec![0, 1, 2], vec![], 3));
    assert_eq!(growth(&[0], 9), (vec![0, 1, 2], vec![], 3));
    assert_eq!(growth(&[2], 1).0, [1, 2]);
    assert_eq!(growth(&[], 9), (vec![], vec![], 0));
}

#[test]
fn field_growth() {
    let topology = AbtmDualTopology::from_csr32(&chain()).unwrap();
    let layout = blocks(&[2, 1]).unwrap();
    let seeds = mask(3, &[1]);
    let closed = close_to_field_blocks(&layout, &seeds).unwrap();
    assert_eq!(closed.indices(), [0, 1]);
    let grown = grow_field_aware_region(&topology, &layout, &seeds, 1).unwrap();
    assert_eq!(grown.region().indices(), [0, 1, 2]);
    assert_eq!(grown.stats().block_closed_seed_dofs, 2);
    assert_eq!(grown.stats().region_blocks, 2);
}

#[test]
fn three_regions() {
    let regions = [mask(3, &[0, 1]), mask(3, &[1, 2]), mask(3, &[1])];
    let found = region_multiplicity(3, &regions).unwrap();
    assert_eq!(found.counts(), [1, 3, 1]);
    assert_eq!(found.multiplicity(1), Some(3));
    assert_eq!(found.multiplicity(3), None);
    let stats = found.stats();
    assert_eq!(stats.total_memberships, 5);
    assert_eq!(stats.overlap_nodes, 1);
    assert_eq!(stats.pair_overlap_memberships, 3);
    let weights = [0, 1, 2].map(|node| weight(3, &regions, 0, node).unwrap());
    assert_eq!(weights, [65_536, 21_845, 0]);
}

/// Entries (0,0) = 1.5, (0,0) = 2.25, (1,1) = -0.0.
fn repeated() -> Csr32Matrix {
    matrix(2, &[(0, 0, 1.5), (0, 0, 2.25), (1, 1, -0.0)])
}

#[test]
fn gathers() {
    let matrix = repeated();
    let topology = AbtmDualTopology::from_csr32(&matrix).unwrap();
    let gathered = |nodes: &[usize]| {
        let plan = prepare_local_numeric_plan(&topology, &matrix, &mask(2, nodes)).unwrap();
        bits(&plan.gather_values(matrix.values()).unwrap())
    };
    assert_eq!(gathered(&[0, 1]), bits(&[3.75, 0.0]));
    assert_eq!(gathered(&[1]), bits(&[-0.0]));
}

#[test]
fn sizes() {
    assert!(Csr32Matrix::new(1 << 20, 1 << 20, vec![0; (1 << 20) + 1], vec![], vec![]).is_ok());
    assert_eq!(DofMask::new(64).unwrap().words().len(), 1);
    assert_eq!(DofMask::new(65).unwrap().words().len(), 2);
}

#[test]
fn the_job() {
    let text = "size=3\nblocks=1,1,1\nptr=0,1,2,2\ncols=1,2\nseeds=0\nhops=1\n";
    let told = "region=0,1\nfrontier=1\ncompleted=1\nlocal_ptr=0,1,1\nlocal_cols=1\n";
    assert_eq!(peak_job(text.as_bytes()), told.as_bytes());
    assert_eq!(peak_job(b"size=03"), b"refused=27\n");
}

/// One call, and a call for each step on a topology that is kept, prepare the same.
#[test]
fn prepared_regions() {
    let (matrix, layout, seeds) = (repeated(), blocks(&[1, 1]).unwrap(), mask(2, &[0]));
    let kept = PreparedFieldAwareTopology::new(&matrix, &layout).unwrap();
    let steps = kept.prepare_region(&seeds, 1).unwrap();
    let single = prepare_region(&matrix, &layout, &seeds, 1).unwrap();
    assert_eq!(single.topology(), kept.topology());
    assert_eq!(single.topology_stats(), kept.topology_stats());
    assert_eq!(single.local().numeric_plan(), steps.numeric_plan());
    assert_eq!(single.local().growth_stats(), steps.growth_stats());
    assert_eq!(single.local().region(), steps.region());
    assert_eq!(single.local().frontier(), steps.frontier());
    let several = kept.prepare_regions(&[seeds.clone(), seeds], 1).unwrap();
    assert_eq!(several.len(), 2);
    assert_eq!(several[1].numeric_plan(), steps.numeric_plan());
    assert_eq!(kept.validate_block_owners(&[1, 0], 2).unwrap(), [1, 0]);
}

/// Rows and columns of a topology, word by word.
#[test]
fn rows() {
    let matrix = matrix(
        200,
        &[(0, 3, 1.0), (0, 67, 1.0), (0, 199, 1.0), (5, 3, 1.0)],
    );
    let topology = AbtmDualTopology::from_csr32(&matrix).unwrap();
    let row = topology.row(0).unwrap();
    assert_eq!((row.nonempty_words(), row.popcount()), (3, 3));
    assert_eq!(
        [3, 4, 67, 199, 200].map(|col| row.contains(col)),
        [true, false, true, true, false]
    );
    assert_eq!(
        [0, 3, 4, 68, 199, 200].map(|col| row.rank(col).unwrap()),
        [0, 0, 1, 2, 2, 3]
    );
    assert_eq!(row.rank(201).unwrap_err().number, 13);
    assert_eq!(
        [0, 1, 2, 3].map(|k| row.select(k)),
        [Some(3), Some(67), Some(199), None]
    );
    assert_eq!(topology.column(3).unwrap().select(1), Some(5));
    assert_eq!(topology.row(200).unwrap_err().number, 13);
}

#[test]
fn layouts() {
    let layout = blocks(&[2, 1]).unwrap();
    assert_eq!(layout.total_dofs(), 3);
    let ranges = [0, 1, 2, usize::MAX].map(|block| layout.block_range(block));
    assert_eq!(ranges, [Some(0..2), Some(2..3), None, None]);
    let component = |dof| layout.locate(dof).map(|at| (at.block_index, at.component));
    assert_eq!(
        [0, 1, 2, 3].map(component),
        [Some((0, 0)), Some((0, 1)), Some((1, 0)), None]
    );
    assert_eq!(layout.field_mask(0).unwrap().indices(), [0, 1, 2]);
    assert!(layout.field_mask(1).unwrap().is_empty());
}
