//! Times of the port and of the original Rust, on the same inputs in one run.
//!
//! ```text
//! benchmark               all rows
//! benchmark short         all calls on the smallest inputs, once each: do port
//!                         and Rust agree?
//! benchmark write FOLDER  all rows; writes benchmarks.csv, benchmarks.svg and
//!                         the tables of BENCHMARKS.md into the folder
//! ```

mod bench;
mod blocks;
mod calls;
mod lend;
mod measure;
mod memory;
mod repeated;
mod report;
mod resident;
mod shapes;

use std::env;
use std::path::Path;
use std::process::exit;

use hybit_original::AbtmDualTopology;

use bench::{Bench, Place, Shape};
use calls::{growth, layout, local, mask, prepared, regions, topology};
use lend::Topology;
use measure::{Effort, SHORT, WHOLE};
use shapes::{BANDED, LONG, RANDOM, UNORDERED, matrix};

/// Both sides are built for the baseline of x86-64, which the archive is
/// built for: `target-cpu=native` would favour the Rust.
const _: () = assert!(!cfg!(target_feature = "sse3"), "built with target-cpu");

/// The last is the largest that document 01 allows.
const SIDES: [usize; 4] = [1_000, 10_000, 100_000, 1_048_576];

/// Of a topology with more entries, in no order, the check takes seconds, and
/// the work on a small region cannot be told from it.
const MOST_ENTRIES: usize = 8_000_000;

fn main() {
    let arguments: Vec<String> = env::args().skip(1).collect();
    let arguments: Vec<&str> = arguments.iter().map(String::as_str).collect();
    match arguments.as_slice() {
        [] => drop(measured(WHOLE, &SIDES)),
        ["short"] => drop(measured(SHORT, &SIDES[..1])),
        ["write", folder] => write(Path::new(folder)),
        // The program starts itself in this way.
        ["resident", way, side] => resident::child(way, number(side)),
        _ => usage(),
    }
}

fn number(argument: &str) -> usize {
    argument.parse().unwrap_or_else(|_| usage())
}

fn usage() -> ! {
    println!("usage: benchmark [short | write FOLDER]");
    exit(1);
}

fn write(folder: &Path) {
    let bench = measured(WHOLE, &SIDES);
    let resident = resident::peaks_of_all(SIDES[SIDES.len() - 1]);
    if let Err(error) = report::write(folder, &bench.rows, resident) {
        println!("{}: {error}", folder.display());
        exit(1);
    }
}

fn measured(effort: Effort, sides: &[usize]) -> Bench {
    let mut bench = Bench::new(effort);
    for &side in sides {
        let place = Place {
            shape: Shape::NONE,
            side,
        };
        layout::rows(&mut bench, place);
        mask::rows(&mut bench, place);
        regions::rows(&mut bench, place);
        for columns in [BANDED, RANDOM] {
            for entries in [1, 5, 16] {
                let shape = Shape { columns, entries };
                on_matrix(&mut bench, Place { shape, side });
            }
        }
        for (columns, entries) in [(UNORDERED, 5), (LONG[0], 0), (LONG[1], 0), (LONG[2], 0)] {
            let shape = Shape { columns, entries };
            by_order(&mut bench, Place { shape, side });
        }
    }
    bench.finish();
    bench
}

fn on_matrix(bench: &mut Bench, place: Place) {
    let matrix = matrix(place.shape, place.side);
    topology::matrix_check(bench, place, &matrix);
    topology::one_side(bench, place, &matrix);
    topology::both_sides(bench, place, &matrix);
    prepared::rows(bench, place, &matrix);
    let rust = AbtmDualTopology::from_csr32(&matrix).expect("an accepted matrix");
    let port = Topology::of(&rust);
    topology::on_topology(bench, place, &port, &rust);
    let small = place.shape.columns == BANDED || matrix.nnz() < MOST_ENTRIES;
    growth::rows(bench, place, &port, &rust, small);
    local::rows(bench, place, (&matrix, &port, &rust), small);
}

/// The calls that depend on the order of a row's entries.
fn by_order(bench: &mut Bench, place: Place) {
    let matrix = matrix(place.shape, place.side);
    topology::one_side(bench, place, &matrix);
    topology::both_sides(bench, place, &matrix);
    let rust = AbtmDualTopology::from_csr32(&matrix).expect("an accepted matrix");
    let port = Topology::of(&rust);
    local::plan_row(bench, place, (&matrix, &port, &rust));
}
