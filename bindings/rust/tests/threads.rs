//! Several threads with small stacks on one topology.

mod common;

use std::thread;

use common::{blocks, mask, matrix};
use hybit_matrix::{DofMask, PreparedFieldAwareTopology, prepare_region};

/// The largest need of a call is 328 KB (README.md).
const STACK: usize = 512 * 1024;

#[test]
fn small_stacks() {
    let entries: Vec<_> = (0..299)
        .map(|node| (node, node + 1, f64::from(node)))
        .collect();
    let (matrix, layout) = (matrix(300, &entries), blocks(&[3; 100]).unwrap());
    let topology = PreparedFieldAwareTopology::new(&matrix, &layout).unwrap();
    let gathered = |seeds: &DofMask| {
        let region = topology.prepare_region(seeds, 2).unwrap();
        region.gather_values(matrix.values()).unwrap()
    };
    let single = |seeds: &DofMask| {
        let prepared = prepare_region(&matrix, &layout, seeds, 2).unwrap();
        prepared.local().gather_values(matrix.values()).unwrap()
    };
    thread::scope(|scope| {
        for turn in 0..8 {
            let (gathered, single) = (&gathered, &single);
            let work = move || {
                for node in (turn..300).step_by(8) {
                    let seeds = mask(300, &[node]);
                    assert_eq!(gathered(&seeds), single(&seeds));
                }
            };
            let thread = thread::Builder::new().stack_size(STACK);
            thread.spawn_scoped(scope, work).unwrap();
        }
    });
}
