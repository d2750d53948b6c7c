//! The eight Rust files with their fields and inner functions made public, so
//! that values which the constructors refuse can be made by hand.

include!(concat!(env!("OUT_DIR"), "/root.rs"));
