//! Calls that could be refused for several reasons: many choices of them.

use super::Call;
use super::cases::{owners, prepare_in};
use super::rooms::LISTS;
use crate::groups::csr32::{Matrix, plant};
use crate::groups::growth::{blocks_of, mask_of};
use crate::groups::layout::Layout;
use crate::groups::local::of_entries;
use crate::groups::mask::Mask;

pub fn run(run: &mut dyn FnMut(Call)) {
    regions(run);
    block_owners(run);
}

/// The first faults are those of a matrix, 1 to 8.
const OF_MATRIX: isize = 8;

/// What else can be wrong in both calls, in the order in which their checks
/// come to it; from `REST` on it is what only the one or the other checks.
#[derive(Clone, Copy)]
enum Fault {
    NoBlocks = OF_MATRIX,
    ListLength,
    Kind,
    NoComponents,
    Twice,
    Over,
    Offset,
    OneOffsetMore,
    Total,
    NotSquare,
}

const REST: u32 = Fault::NotSquare as u32 + 1;

/// Which of the faults are planted, one for each bit.
#[derive(Clone, Copy)]
struct Chosen(u64);

impl Chosen {
    fn has(self, fault: Fault) -> bool {
        self.rest(0, fault as u32)
    }

    /// A fault that is counted from another one on.
    fn rest(self, from: u32, fault: u32) -> bool {
        self.0 >> (from + fault) & 1 == 1
    }
}

/// Up to three of so many faults, and all of them from each one on.
fn each(faults: u32, work: &mut dyn FnMut(Chosen)) {
    work(Chosen(0));
    for a in 0..faults {
        for b in a..faults {
            for c in b..faults {
                work(Chosen(1 << a | 1 << b | 1 << c));
            }
        }
        work(Chosen((1 << faults) - (1 << a)));
    }
}

/// Entries (0,1), (1,65), (2,3), (2,3) and (4,4), side 66.
fn matrix(chosen: Chosen) -> Matrix {
    let mut matrix = of_entries(66, &[(0, 1), (1, 65), (2, 3), (2, 3), (4, 4)]);
    if chosen.has(Fault::NotSquare) {
        matrix.ncols = 67;
    }
    plant(chosen.0, &mut matrix);
    matrix
}

/// Blocks of 1, 61 and 4.
fn layout(chosen: Chosen) -> Layout {
    let last = if chosen.has(Fault::Total) { 5 } else { 4 };
    let mut layout = blocks_of(&[1, 61, last]);
    let blocks = &mut layout.blocks;
    if chosen.has(Fault::Kind) {
        blocks.kinds[1] = 7;
    }
    if chosen.has(Fault::NoComponents) {
        blocks.components[1] = 0;
    }
    if chosen.has(Fault::Twice) {
        blocks.ids[1] = blocks.ids[0];
        blocks.fields[1] = blocks.fields[0];
    }
    if chosen.has(Fault::Over) {
        let place = if chosen.has(Fault::NoComponents) {
            2
        } else {
            1
        };
        blocks.components[place] = 1 << 20;
    }
    if chosen.has(Fault::Offset) {
        layout.offsets[1] += 1;
    }
    if chosen.has(Fault::OneOffsetMore) {
        layout.offsets.push(0);
    }
    if chosen.has(Fault::ListLength) {
        layout.blocks.fields.pop();
    }
    if chosen.has(Fault::NoBlocks) {
        layout.blocks.kinds.clear();
    }
    layout
}

/// Of a region: its seeds' length, their word count, a bit past the length,
/// then each list one too short.
fn regions(run: &mut dyn FnMut(Call)) {
    each(REST + 3 + LISTS as u32, &mut |chosen| {
        let short = |list: usize| chosen.rest(REST, 3 + list as u32);
        let mut lengths = [67, 5, 5, 67, 5, 5, 67, 5, 2, 2, 2, 66, 67, 5, 6, 5];
        for (list, length) in lengths.iter_mut().enumerate() {
            *length -= usize::from(short(list));
        }
        let (matrix, layout) = (matrix(chosen), layout(chosen));
        run(prepare_in(&matrix, &layout, &seeds(chosen), 1, &lengths));
    });
}

fn seeds(chosen: Chosen) -> Mask {
    let mut mask = mask_of(66, &[0, 2]);
    if chosen.rest(REST, 2) {
        mask.words[1] |= 1 << 2;
    }
    if chosen.rest(REST, 0) {
        mask.len = 65;
    }
    if chosen.rest(REST, 1) {
        mask.words.push(0);
    }
    mask
}

/// Of owners: the list's length, no ranks, an owner out of range and one that
/// differs, each in the first or the last block; a short list.
fn block_owners(run: &mut dyn FnMut(Call)) {
    each(REST + 7, &mut |chosen| {
        let has = |fault: u32| chosen.rest(REST, fault);
        let mut list = vec![1; 66];
        if has(2) {
            list[0] = 9;
        }
        if has(3) {
            list[61] = 2;
        }
        if has(4) {
            list[62..].fill(9);
        }
        if has(5) {
            list[65] = 2;
        }
        if has(0) {
            list.push(0);
        }
        let ranks = if has(1) { 0 } else { 3 };
        let room = if has(6) { 2 } else { 3 };
        let (matrix, layout) = (matrix(chosen), layout(chosen));
        run(owners(&matrix, &layout, &list, ranks, room));
    });
}
