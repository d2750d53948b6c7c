//! How lists pass to the port, and a topology's lists.

use hybit_original::{AbtmDualTopology, AbtmTopology};

/// Calls a function of the port. Each item is passed as the parameters that it
/// stands for: a list as its pointer and length, a matrix, a layout or a
/// topology as all of theirs.
macro_rules! lend {
    ($function:ident: $($kind:ident($item:expr)),* $(,)?) => {
        $crate::lend::lend!(@ $function [] $($kind($item),)*)
    };
    (@ $function:ident [$($done:expr,)*]) => {
        // SAFETY: every pointer goes with the length of its own list, and the
        // lists that are written are borrowed apart from the others.
        unsafe { $function($($done),*) }
    };
    (@ $function:ident [$($done:expr,)*] value($item:expr), $($more:tt)*) => {
        $crate::lend::lend!(@ $function [$($done,)* $item,] $($more)*)
    };
    (@ $function:ident [$($done:expr,)*] read($item:expr), $($more:tt)*) => {
        $crate::lend::lend!(@ $function [$($done,)* $item.as_ptr(), $item.len(),] $($more)*)
    };
    (@ $function:ident [$($done:expr,)*] write($item:expr), $($more:tt)*) => {
        $crate::lend::lend!(@ $function [$($done,)* $item.as_mut_ptr(), $item.len(),] $($more)*)
    };
    (@ $function:ident [$($done:expr,)*] mask($item:expr), $($more:tt)*) => {
        $crate::lend::lend!(@ $function [$($done,)*]
            value($item.len()), read($item.words()), $($more)*)
    };
    (@ $function:ident [$($done:expr,)*] matrix($item:expr), $($more:tt)*) => {
        $crate::lend::lend!(@ $function [$($done,)*] value($item.nrows()), value($item.ncols()),
            read($item.row_ptr()), read($item.col_idx()), read($item.values()), $($more)*)
    };
    (@ $function:ident [$($done:expr,)*] side($item:expr), $($more:tt)*) => {
        $crate::lend::lend!(@ $function [$($done,)*] value($item.nrows), value($item.ncols),
            read($item.pointers), read($item.words), read($item.masks), value($item.pairs),
            $($more)*)
    };
    (@ $function:ident [$($done:expr,)*] topology($item:expr), $($more:tt)*) => {
        $crate::lend::lend!(@ $function [$($done,)*]
            side($item.rows), side($item.columns), $($more)*)
    };
    (@ $function:ident [$($done:expr,)*] blocks($item:expr), $($more:tt)*) => {
        $crate::lend::lend!(@ $function [$($done,)*] read($item.kinds), read($item.ids),
            read($item.fields), read($item.components), $($more)*)
    };
    (@ $function:ident [$($done:expr,)*] layout($item:expr), $($more:tt)*) => {
        $crate::lend::lend!(@ $function [$($done,)*]
            blocks($item), read($item.offsets), $($more)*)
    };
}
pub(crate) use lend;

/// One side of a topology, with exactly its own words.
pub struct Side {
    pub nrows: usize,
    pub ncols: usize,
    pub pointers: Vec<u32>,
    pub words: Vec<u32>,
    pub masks: Vec<u64>,
    pub pairs: usize,
}

pub struct Topology {
    pub rows: Side,
    pub columns: Side,
}

impl Topology {
    pub fn of(rust: &AbtmDualTopology) -> Self {
        Self {
            rows: Side::of(rust.row_topology()),
            columns: Side::of(rust.column_topology()),
        }
    }
}

impl Side {
    /// The Rust keeps its lists to itself; they are the words of its rows.
    pub fn of(side: &AbtmTopology) -> Self {
        let mut lists = Self {
            nrows: side.nrows(),
            ncols: side.ncols(),
            pointers: vec![0],
            words: vec![],
            masks: vec![],
            pairs: side.structural_nnz(),
        };
        for row in (0..side.nrows()).map_while(|row| side.row(row).ok()) {
            for word in row.words() {
                lists.words.push(word.word_index());
                lists.masks.push(word.mask());
            }
            lists.pointers.push(lists.masks.len() as u32);
        }
        lists
    }
}

/// A list begins with the other, and has zeros past it.
pub fn begins<T: PartialEq + Default>(list: &[T], front: &[T]) -> bool {
    let zero = T::default();
    list.len() >= front.len()
        && list[..front.len()] == *front
        && list[front.len()..].iter().all(|element| *element == zero)
}
