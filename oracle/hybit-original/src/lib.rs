//! The eight Rust files, unchanged and compiled from where they stand.

include!(concat!(env!("OUT_DIR"), "/root.rs"));
