//! The proved region cutter for Rust programs, under the names and types of the crate that it replaces.
//!
//! Each type holds its lists, and holds only lists that the port has accepted. Accessors read them; every other answer
//! is that of a call of the port, whose promise is proved. This crate allocates the lists that a call needs and hands
//! them over. A refusal comes back as [`Refusal`]. The calls themselves, on lists that the caller lends, are in
//! [`calls`].
//!
//! Three things are found here and not by the port: which word of a row holds a column, and that a row or a rank's
//! column is out of range ([`AbtmTopologyRow`]); two of the statistics of a plan's pattern
//! ([`prepare_local_numeric_plan`]); and ratios of statistics.

#![deny(unsafe_code)]

#[rustfmt::skip]
#[allow(unsafe_code)]
mod raw;

#[rustfmt::skip]
#[allow(unsafe_code)]
#[allow(clippy::too_many_arguments)]
pub mod calls;

// The README's example is compiled with the tests.
#[cfg(doctest)]
#[doc = include_str!("../README.md")]
mod readme {}

mod lend;

mod csr32;
mod dof_layout;
mod dual_topology;
mod field_region;
mod job;
mod mask;
mod prepared_field_region;
mod refusal;
mod region;
mod topology;

pub use csr32::Csr32Matrix;
pub use dof_layout::{DofAddress, DofBlock, DofEntityKind, FieldAwareDofLayout};
pub use dual_topology::{AbtmDualTopology, AbtmDualTopologyStats};
pub use field_region::{
    FieldAwareRegionGrowth, FieldAwareRegionStats, close_to_field_blocks, field_block_owners,
    grow_field_aware_region,
};
pub use job::peak_job;
pub use mask::DofMask;
pub use prepared_field_region::{
    PreparedFieldAwareLocalRegion, PreparedFieldAwareTopology, PreparedRegion, prepare_region,
};
pub use refusal::Refusal;
pub use region::{
    AbtmLocalNumericPlan, AbtmLocalNumericPlanStats, AbtmLocalSubmatrixPattern,
    AbtmLocalSubmatrixPatternStats, AbtmRegionGrowth, AbtmRegionGrowthStats,
    AbtmRegionMultiplicity, AbtmRegionMultiplicityStats, extract_local_submatrix_pattern,
    gather_values, grow_undirected_region, prepare_local_numeric_plan, region_multiplicity, weight,
};
pub use topology::{
    ABTM_TOPOLOGY_WORD_BITS, AbtmTopology, AbtmTopologyRow, AbtmTopologyStats, AbtmTopologyWord,
};
