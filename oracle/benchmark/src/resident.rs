//! The peak resident size of a process that prepares one region, by the port's
//! side alone or by the Rust's alone: the program starts itself for each.

use std::env;
use std::fs;
use std::process::Command;

use hybit_original::FieldAwareDofLayout;

use crate::bench::Shape;
use crate::blocks::Lists;
use crate::calls::prepared::{Lent, few_seeds, original, peaks};
use crate::shapes::{BANDED, matrix};

/// `inputs` makes the matrix, the blocks and the seeds only, as the others do.
const WAYS: [&str; 3] = ["inputs", "port", "rust"];

/// Megabytes at most, for each way, on banded rows of 16.
pub fn peaks_of_all(side: usize) -> Option<[f64; 3]> {
    let mut peaks = [0.0; 3];
    for (peak, way) in peaks.iter_mut().zip(WAYS) {
        let program = env::current_exe().ok()?;
        let side = side.to_string();
        let child = Command::new(program)
            .args(["resident", way, &side])
            .output();
        *peak = String::from_utf8(child.ok()?.stdout)
            .ok()?
            .trim()
            .parse()
            .ok()?;
    }
    Some(peaks)
}

/// What the child does, and prints.
pub fn child(way: &str, side: usize) {
    let shape = Shape {
        columns: BANDED,
        entries: 16,
    };
    let (matrix, blocks, seeds) = (matrix(shape, side), peaks(side), few_seeds(side));
    match way {
        "port" => {
            let lists = Lists::of(&blocks);
            drop(blocks);
            let mut lent = Lent::for_matrix(&matrix);
            assert_eq!(lent.prepare(&matrix, &lists, &seeds).number, 0);
        }
        "rust" => {
            let layout = FieldAwareDofLayout::new(blocks).expect("an accepted layout");
            drop(original(&matrix, &layout, &seeds));
        }
        _ => {}
    }
    println!("{}", peak().expect("VmHWM of /proc/self/status"));
}

fn peak() -> Option<f64> {
    let status = fs::read_to_string("/proc/self/status").ok()?;
    let line = status.lines().find(|line| line.starts_with("VmHWM:"))?;
    let kilobytes: f64 = line.split_whitespace().nth(1)?.parse().ok()?;
    Some(kilobytes * 1_024.0 / 1e6)
}
