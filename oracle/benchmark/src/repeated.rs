//! The functions of librepeated.a: the work of a call many times after one
//! check. The port's static library does not have them.

use hybit_port::Answer;

macro_rules! on_topology {
    ($($function:ident($($more:ident: $kind:ty),*);)*) => {
        unsafe extern "C" {
            $(pub fn $function(
                row_nrows: usize,
                row_ncols: usize,
                row_pointers: *const u32,
                row_pointers_len: usize,
                row_words: *const u32,
                row_words_len: usize,
                row_masks: *const u64,
                row_masks_len: usize,
                row_pairs: usize,
                column_nrows: usize,
                column_ncols: usize,
                column_pointers: *const u32,
                column_pointers_len: usize,
                column_words: *const u32,
                column_words_len: usize,
                column_masks: *const u64,
                column_masks_len: usize,
                column_pairs: usize,
                $($more: $kind),*
            ) -> Answer;)*
        }
    };
}

on_topology! {
    hybit_repeated_growth(
        len: usize,
        words: *const u64,
        words_len: usize,
        hops: u64,
        times: u64,
        region: *mut u64,
        region_len: usize,
        frontier: *mut u64,
        frontier_len: usize,
        scratch: *mut u64,
        scratch_len: usize
    );
    hybit_repeated_field_growth(
        kinds: *const u8,
        kinds_len: usize,
        ids: *const u64,
        ids_len: usize,
        fields: *const u32,
        fields_len: usize,
        components: *const u32,
        components_len: usize,
        offsets: *const u64,
        offsets_len: usize,
        len: usize,
        words: *const u64,
        words_len: usize,
        hops: u64,
        times: u64,
        region: *mut u64,
        region_len: usize,
        frontier: *mut u64,
        frontier_len: usize,
        scratch: *mut u64,
        scratch_len: usize
    );
    hybit_repeated_pattern(
        len: usize,
        words: *const u64,
        words_len: usize,
        times: u64,
        global_nodes: *mut u32,
        global_nodes_len: usize,
        row_ptr: *mut u32,
        row_ptr_len: usize,
        col_idx: *mut u32,
        col_idx_len: usize
    );
    hybit_repeated_plan(
        matrix_nrows: usize,
        matrix_ncols: usize,
        row_ptr: *const u32,
        row_ptr_len: usize,
        col_idx: *const u32,
        col_idx_len: usize,
        values: *const f64,
        values_len: usize,
        len: usize,
        words: *const u64,
        words_len: usize,
        times: u64,
        global_nodes: *mut u32,
        global_nodes_len: usize,
        local_row_ptr: *mut u32,
        local_row_ptr_len: usize,
        local_col_idx: *mut u32,
        local_col_idx_len: usize,
        source_ptr: *mut u32,
        source_ptr_len: usize,
        source_indices: *mut u32,
        source_indices_len: usize
    );
}

unsafe extern "C" {
    pub fn hybit_repeated_gather(
        source_ptr: *const u32,
        source_ptr_len: usize,
        source_indices: *const u32,
        source_indices_len: usize,
        source_value_len: usize,
        values: *const f64,
        values_len: usize,
        times: u64,
        out: *mut f64,
        out_len: usize,
    ) -> Answer;

    pub fn hybit_repeated_closing(
        kinds: *const u8,
        kinds_len: usize,
        ids: *const u64,
        ids_len: usize,
        fields: *const u32,
        fields_len: usize,
        components: *const u32,
        components_len: usize,
        offsets: *const u64,
        offsets_len: usize,
        len: usize,
        words: *const u64,
        words_len: usize,
        times: u64,
        out: *mut u64,
        out_len: usize,
    ) -> Answer;
}
