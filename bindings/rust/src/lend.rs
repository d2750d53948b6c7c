//! Handing typed values to the port's calls.

/// 01's largest side, mask length and node count. A list for more is not allocated: the call refuses the number (1)
/// before it looks at a list.
pub(crate) const SIDE_LIMIT: usize = 1_048_576;

/// Room for a mask's words.
pub(crate) fn mask_words(len: usize) -> Vec<u64> {
    vec![0; len.min(SIDE_LIMIT).div_ceil(64)]
}

/// Calls a function of the port. A `matrix`, a `side`, a `topology` of both sides, a `layout` or a `mask` stands for
/// its numbers and lists: `ask!(hybit_mask_union_assign(mask self, mask other))`.
macro_rules! ask {
    ($function:ident($($handed:tt)*)) => {
        $crate::lend::ask!(@ $function [] $($handed)*)
    };
    (@ $function:ident [$($done:tt)*] matrix $matrix:expr $(, $($rest:tt)*)?) => {
        $crate::lend::ask!(@ $function [
            $($done)* $matrix.nrows(), $matrix.ncols(), $matrix.row_ptr(), $matrix.col_idx(), $matrix.values(),
        ] $($($rest)*)?)
    };
    (@ $function:ident [$($done:tt)*] side $side:expr $(, $($rest:tt)*)?) => {
        $crate::lend::ask!(@ $function [
            $($done)* $side.nrows(), $side.ncols(), $side.row_word_ptr(), $side.word_indices(), $side.masks(),
            $side.structural_nnz(),
        ] $($($rest)*)?)
    };
    (@ $function:ident $done:tt topology $topology:expr $(, $($rest:tt)*)?) => {
        $crate::lend::ask!(@ $function $done
            side $topology.row_topology(), side $topology.column_topology() $(, $($rest)*)?)
    };
    (@ $function:ident [$($done:tt)*] layout $layout:expr $(, $($rest:tt)*)?) => {
        $crate::lend::ask!(@ $function [
            $($done)* $layout.entity_kinds(), $layout.entity_ids(), $layout.field_ids(), $layout.components(),
            $layout.offsets(),
        ] $($($rest)*)?)
    };
    (@ $function:ident [$($done:tt)*] mask $mask:expr $(, $($rest:tt)*)?) => {
        $crate::lend::ask!(@ $function [$($done)* $mask.len(), $mask.words(),] $($($rest)*)?)
    };
    (@ $function:ident [$($done:tt)*] $other:expr $(, $($rest:tt)*)?) => {
        $crate::lend::ask!(@ $function [$($done)* $other,] $($($rest)*)?)
    };
    (@ $function:ident [$($done:tt)*]) => {
        $crate::refusal::Record::accepted($crate::calls::$function($($done)*))
    };
}
pub(crate) use ask;
