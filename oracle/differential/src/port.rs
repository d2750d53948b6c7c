//! Calling the port by way of its binding for Rust: the calls on lent lists.

/// Calls a function of the port. A list in brackets is lent:
/// `port!(hybit_mask_check(mask.len, [mask.words]))`.
macro_rules! port {
    ($function:ident($($arguments:tt)*)) => {
        port!(@ $function [] $($arguments)*)
    };
    (@ $function:ident [$($done:tt)*] [$list:expr] $(, $($rest:tt)*)?) => {
        port!(@ $function [$($done)* $list.as_mut_slice(),] $($($rest)*)?)
    };
    (@ $function:ident [$($done:tt)*] $number:expr $(, $($rest:tt)*)?) => {
        port!(@ $function [$($done)* $number,] $($($rest)*)?)
    };
    (@ $function:ident [$($done:tt)*]) => {
        hybit_matrix::calls::$function($($done)*)
    };
}
pub(crate) use port;

/// Lends a topology, then what else the function takes.
macro_rules! on_topology {
    ($function:ident, $topology:expr, $($more:tt)*) => {
        crate::port::port!($function(
            $topology.rows.nrows,
            $topology.rows.ncols,
            [$topology.rows.row_word_ptr],
            [$topology.rows.word_indices],
            [$topology.rows.masks],
            $topology.rows.structural_nnz,
            $topology.columns.nrows,
            $topology.columns.ncols,
            [$topology.columns.row_word_ptr],
            [$topology.columns.word_indices],
            [$topology.columns.masks],
            $topology.columns.structural_nnz,
            $($more)*
        ))
        .into()
    };
}
pub(crate) use on_topology;
