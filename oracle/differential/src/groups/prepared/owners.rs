//! Owners of the blocks of a matrix.

use super::Call;
use super::cases::owners;
use crate::groups::growth::{any_way, blocks_of, cut};
use crate::groups::local::of_entries;
use crate::rng::Rng;

/// Owners by block, then with one node of another owner, out of range or not.
pub fn run(run: &mut dyn FnMut(Call)) {
    let mut rng = Rng::new(32);
    for _ in 0..2_000 {
        let side = 1 + rng.below(150);
        let most = rng.pick(&[1, 3, 70]);
        let layout = blocks_of(&cut(side, || 1 + rng.below(most)));
        let matrix = of_entries(side, &any_way(&mut rng, side, side));
        let blocks = layout.blocks.kinds.len();
        let ranks = rng.pick(&[1, 2, 4, 1_000, u32::MAX]);
        let mut list = vec![];
        for &size in &layout.blocks.components {
            let owner = (rng.next() % u64::from(ranks)) as u32;
            list.resize(list.len() + size as usize, owner);
        }
        for room in [blocks, blocks - 1, blocks + 3] {
            run(owners(&matrix, &layout, &list, ranks, room));
        }
        run(owners(&matrix, &layout, &list[1..], ranks, blocks));
        run(owners(&matrix, &layout, &list, 0, blocks));
        let node = rng.below(list.len());
        list[node] = rng.pick(&[ranks, ranks.wrapping_add(1), ranks - 1, 0]);
        run(owners(&matrix, &layout, &list, ranks, blocks));
        run(owners(&matrix, &layout, &list, ranks, 0));
    }
}
