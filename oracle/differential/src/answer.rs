//! What a call answers.

/// So many values at most in an answer. The port's records differ in theirs;
/// those that a record lacks are 0 here.
pub const VALUES: usize = 32;

/// The fields of all of the port's records.
#[derive(Clone, Copy, Debug, PartialEq, Eq)]
pub struct Answer {
    /// The refusal's number, 0 if the call was accepted.
    pub number: u32,
    /// False on a refusal and where the answer is none.
    pub present: bool,
    pub expected: u64,
    pub actual: u64,
    /// Those that are f64 by their bits.
    pub values: [u64; VALUES],
}

/// Takes one of the port's records over: its counts, then its ratios by their
/// bits.
macro_rules! from_record {
    ($($record:ident { $($count:ident),*; $($ratio:ident),* })*) => {
        $(impl From<hybit_matrix::calls::$record> for Answer {
            fn from(flat: hybit_matrix::calls::$record) -> Self {
                Self {
                    number: flat.number,
                    present: flat.present,
                    expected: flat.expected,
                    actual: flat.actual,
                    ..Self::told_all(&[
                        $(u64::from(flat.$count),)*
                        $(flat.$ratio.to_bits(),)*
                    ])
                }
            }
        })*
    };
}

from_record! {
    Answer { value; }
    PairAnswer { first, second; }
    BuildAnswer { row_words, column_words, pairs; }
    TopologyStatsAnswer {
        nrows, ncols, structural_nnz, nonempty_words, metadata_bytes;
        average_word_nnz, word_fill_ratio, metadata_bytes_per_nnz
    }
    DualStatsAnswer {
        nrows, ncols, structural_nnz, row_metadata_bytes, column_metadata_bytes,
        total_metadata_bytes;
        metadata_bytes_per_nnz
    }
    GrowthAnswer {
        hops_requested, hops_completed, seed_nodes, region_nodes,
        frontier_nodes_visited, row_words_visited, column_words_visited,
        candidate_neighbor_bits, topology_words_visited, new_nodes;
    }
    FieldGrowthAnswer {
        hops_requested, hops_completed, seed_dofs, block_closed_seed_dofs,
        region_dofs, region_blocks, frontier_dofs_visited, row_words_visited,
        column_words_visited, candidate_neighbor_bits;
    }
    MultiplicityAnswer {
        region_count, node_count, total_memberships, covered_nodes,
        overlap_nodes, max_multiplicity, pair_overlap_memberships,
        extra_memberships;
        average_multiplicity_on_covered, overlap_fraction_on_covered
    }
    PatternAnswer {
        global_nodes, local_nodes, local_nnz, topology_words_visited,
        candidate_neighbor_bits, kept_neighbor_bits, mapping_scratch_bytes,
        pattern_bytes;
        structural_pruning_ratio, average_local_row_nnz
    }
    PlanAnswer {
        local_nodes, local_nnz, source_terms, duplicate_source_terms,
        direct_source_map, plan_bytes;
    }
    PreparedAnswer {
        row_words, column_words, pairs,
        topology_nrows, topology_ncols, structural_nnz, row_metadata_bytes,
        column_metadata_bytes,
        hops_requested, hops_completed, seed_dofs, block_closed_seed_dofs,
        region_dofs, region_blocks, frontier_dofs_visited, row_words_visited,
        column_words_visited, candidate_neighbor_bits,
        global_nodes, local_nodes, local_nnz, topology_words_visited,
        pattern_candidate_bits, kept_neighbor_bits, mapping_scratch_bytes,
        pattern_bytes,
        plan_local_nodes, plan_local_nnz, source_terms, duplicate_source_terms,
        direct_source_map, plan_bytes;
    }
}

impl Answer {
    /// Accepted, with a value.
    pub fn told(value: u64) -> Self {
        Self::told_all(&[value])
    }

    /// Accepted, with several values.
    pub fn told_all(told: &[u64]) -> Self {
        let mut values = [0; VALUES];
        values[..told.len()].copy_from_slice(told);
        Self {
            number: 0,
            present: true,
            expected: 0,
            actual: 0,
            values,
        }
    }

    /// Accepted, with nothing to tell.
    pub fn done() -> Self {
        Self::told_all(&[])
    }

    /// Accepted, and the answer is none.
    pub fn none() -> Self {
        Self {
            present: false,
            ..Self::done()
        }
    }

    pub fn refused(number: u32) -> Self {
        Self {
            number,
            ..Self::none()
        }
    }

    /// Refusal 11, the only one with figures.
    pub fn wrong_length(expected: usize, actual: usize) -> Self {
        Self {
            expected: expected as u64,
            actual: actual as u64,
            ..Self::refused(11)
        }
    }

    /// 0 if the answer is none, 1 if the first value is 0, 2 if it is more.
    pub fn none_zero_or_more(&self) -> u64 {
        u64::from(self.present) + self.values[0].min(1)
    }
}
