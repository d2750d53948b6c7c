//! The calls that are measured, one file for each group.

pub mod growth;
pub mod layout;
pub mod local;
pub mod mask;
pub mod prepared;
pub mod regions;
pub mod topology;
