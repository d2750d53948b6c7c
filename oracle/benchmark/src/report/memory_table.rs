//! Memory at the largest side.

use super::Line;
use super::figures::{grouped, megabytes, strings, table};
use crate::bench::{Key, Shape};

const ENTRIES: [usize; 3] = [1, 5, 16];

pub fn text(lines: &[Line], resident: Option<[f64; 3]>) -> String {
    let rows = lines.iter().flat_map(|line| &line.rows);
    let Some(side) = rows.map(|row| row.side).max() else {
        return String::new();
    };
    format!(
        "Side {}, by columns and entries a row: lent lists / the Rust's most, in millions of bytes.\n\n{}\n{}\n{}",
        grouped(side),
        by_shape(lines, side),
        without_shape(lines, side),
        resident.map(shown).unwrap_or_default()
    )
}

/// Lines that differ in their shape alone are one row.
fn by_shape(lines: &[Line], side: usize) -> String {
    let columns = ["banded", "random"].into_iter();
    let shapes: Vec<Shape> = columns
        .flat_map(|columns| ENTRIES.map(|entries| Shape { columns, entries }))
        .collect();
    let mut heading = strings(["call", "input"]);
    let named = |shape: &Shape| format!("{}, {}", shape.columns, shape.entries);
    heading.extend(shapes.iter().map(named));
    let first = lines.iter().filter(|line| line.key.shape == shapes[0]);
    let rows: Vec<Vec<String>> = first
        .filter(|line| cell(line, side).is_some())
        .map(|line| {
            let cells = shapes.iter().map(|&shape| {
                let key = Key {
                    shape,
                    ..line.key.clone()
                };
                let own = lines.iter().find(|line| *line.key == key);
                own.and_then(|own| cell(own, side)).unwrap_or_default()
            });
            let names = [line.key.call.to_string(), line.key.input.clone()];
            names.into_iter().chain(cells).collect()
        })
        .collect();
    table(&heading, &rows)
}

fn without_shape(lines: &[Line], side: usize) -> String {
    let others = lines
        .iter()
        .filter(|line| !matches!(line.key.shape.columns, "banded" | "random"));
    let rows: Vec<Vec<String>> = others
        .filter_map(|line| {
            let names = [line.key.call.to_string(), line.key.named()];
            let cell = cell(line, side)?;
            Some(names.into_iter().chain([cell]).collect())
        })
        .collect();
    let heading = strings(["call", "input", "lent lists / the Rust's most"]);
    table(&heading, &rows)
}

fn cell(line: &Line, side: usize) -> Option<String> {
    let memory = line.at(side)?.memory?;
    Some(format!(
        "{} / {}",
        megabytes(memory.lent),
        megabytes(memory.rust)
    ))
}

fn shown([inputs, port, rust]: [f64; 3]) -> String {
    format!(
        "Peak resident size of a process that makes one `prepare_region` on banded rows of 16 (1 % seeds, 4 hops), in millions of bytes: by the port {port:.0}, by the Rust {rust:.0}; one that makes the inputs only, {inputs:.0}.\n"
    )
}
