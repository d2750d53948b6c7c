//! The exported functions as C sees them, for the benchmark, which lends lists
//! by their pointers: the binding's own declarations.

#[rustfmt::skip]
#[path = "../../../bindings/rust/src/raw.rs"]
mod raw;

pub use raw::*;
