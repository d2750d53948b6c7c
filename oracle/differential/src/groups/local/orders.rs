//! Calls that could be refused for several reasons: many choices of them.

use super::cases::of_entries;
use super::{Call, rooms};
use crate::groups::csr32::{Matrix, plant};
use crate::groups::growth::mask_of;
use crate::groups::mask::Mask;
use crate::groups::topology::{Topology, of_pairs};

pub fn run(run: &mut dyn FnMut(Call)) {
    patterns(run);
    plans(run);
}

/// The first faults are those of a matrix, 1 to 8.
const OF_MATRIX: isize = 8;

/// What else can be wrong, in the order in which a plan's checks come to it.
#[derive(Clone, Copy)]
enum Fault {
    RowsOver = OF_MATRIX,
    ColumnsOver,
    RowsEmptyWord,
    ColumnsEmptyWord,
    OtherColumns,
    OtherSize,
    NotSquare,
    Length,
    WordCount,
    StrayBit,
    NoEntry,
    NoPair,
    NoEntryLater,
    NoPairLater,
    ShortNodes,
    ShortPointers,
    ShortColumns,
    ShortSourcePointers,
    ShortSources,
}

const FAULTS: u32 = Fault::ShortSources as u32 + 1;

/// Which of the faults are planted, one for each bit.
#[derive(Clone, Copy)]
struct Chosen(u32);

impl Chosen {
    fn has(self, fault: Fault) -> bool {
        self.0 >> fault as u32 & 1 == 1
    }
}

/// Up to four of the faults from a first one on, and all of them from there.
fn each(first: u32, work: &mut dyn FnMut(Chosen)) {
    work(Chosen(0));
    for a in first..FAULTS {
        for b in a..FAULTS {
            for c in b..FAULTS {
                for d in c..FAULTS {
                    work(Chosen(1 << a | 1 << b | 1 << c | 1 << d));
                }
            }
        }
        work(Chosen((1 << FAULTS) - (1 << a)));
    }
}

/// Entries (0,1), (1,65), (2,3), (2,3) and (4,4), side 66; region all of these
/// nodes and 64.
fn matrix(chosen: Chosen) -> Matrix {
    let mut entries = vec![(0, 1), (1, 65), (2, 3), (2, 3), (4, 4)];
    if chosen.has(Fault::NoEntry) {
        entries.retain(|&entry| entry != (1, 65));
    }
    if chosen.has(Fault::NoPair) {
        entries.push((1, 64));
    }
    if chosen.has(Fault::NoEntryLater) {
        entries.retain(|&entry| entry != (4, 4));
    }
    if chosen.has(Fault::NoPairLater) {
        entries.push((4, 0));
    }
    let mut matrix = of_entries(66, &entries);
    if chosen.has(Fault::OtherSize) {
        matrix.row_ptr.push(entries.len() as u32);
        matrix.nrows = 67;
    }
    if chosen.has(Fault::NotSquare) {
        matrix.ncols = 67;
    }
    plant(u64::from(chosen.0), &mut matrix);
    matrix
}

fn topology(chosen: Chosen) -> Topology {
    let ncols = if chosen.has(Fault::NotSquare) { 67 } else { 66 };
    let pairs = [(0, 1), (1, 65), (2, 3), (4, 4)];
    let mut topology = of_pairs(66, ncols, &pairs);
    if chosen.has(Fault::OtherColumns) {
        topology.columns = of_pairs(66, ncols, &[(0, 1), (1, 65), (2, 3), (4, 5)]).columns;
    }
    for (side, over, empty) in [
        (&mut topology.rows, Fault::RowsOver, Fault::RowsEmptyWord),
        (
            &mut topology.columns,
            Fault::ColumnsOver,
            Fault::ColumnsEmptyWord,
        ),
    ] {
        if chosen.has(over) {
            side.structural_nnz = (1 << 24) + 1;
        }
        if chosen.has(empty) {
            side.masks[0] = 0;
        }
    }
    topology
}

fn region(chosen: Chosen) -> Mask {
    let mut mask = mask_of(66, &[0, 1, 2, 3, 4, 64, 65]);
    if chosen.has(Fault::StrayBit) {
        mask.words[1] |= 1 << 2;
    }
    if chosen.has(Fault::Length) {
        mask.len = 65;
    }
    if chosen.has(Fault::WordCount) {
        mask.words.push(0);
    }
    mask
}

/// Of a right call 7 nodes, 8 pointers, 4 pairs, 5 pointers, 5 sources; one
/// fewer of a list that is short, none if all are.
fn lengths(chosen: Chosen) -> [usize; 5] {
    let mut lengths = [7, 8, 4, 5, 5];
    let short = [
        Fault::ShortNodes,
        Fault::ShortPointers,
        Fault::ShortColumns,
        Fault::ShortSourcePointers,
        Fault::ShortSources,
    ];
    if short.iter().all(|&fault| chosen.has(fault)) {
        return [0; 5];
    }
    for (length, fault) in lengths.iter_mut().zip(short) {
        *length -= usize::from(chosen.has(fault));
    }
    lengths
}

fn patterns(run: &mut dyn FnMut(Call)) {
    each(Fault::RowsOver as u32, &mut |chosen| {
        run(Call::Pattern {
            topology: topology(chosen),
            region: region(chosen),
            lent: rooms::pattern_lent(&lengths(chosen)),
        });
    });
}

fn plans(run: &mut dyn FnMut(Call)) {
    each(0, &mut |chosen| {
        run(Call::Plan {
            topology: topology(chosen),
            matrix: matrix(chosen),
            region: region(chosen),
            lent: rooms::plan_lent(&lengths(chosen)),
        });
    });
}
