//! The tables of BENCHMARKS.md. Sides are columns.

use std::fs;

use super::exponents::{self, called};
use super::figures::{figure, grouped, strings, table};
use super::{Line, memory_table};
use crate::bench::Key;

pub fn text(lines: &[Line], resident: Option<[f64; 3]>) -> String {
    let sides = sides(lines);
    let rows: usize = lines.iter().map(|line| line.rows.len()).sum();
    let judged = |key: &Key| key.target().is_some();
    let parted = |key: &Key| !key.work && lines.iter().any(|line| is_work_of(line.key, key));
    let is_other = |key: &Key| !judged(key) && !parted(key);
    let others =
        |wanted: fn(&Key) -> bool| ratios(lines, &sides, |key| is_other(key) && wanted(key));
    format!(
        "{rows} rows of one run on {}.\n\n\
         ### Calls with a target, on banded input\n\n{}\n\
         ### Other calls: matrices and topologies\n\n{}\n\
         ### Other calls: random columns\n\n{}\n\
         ### Other calls: by the order of a row's entries\n\n{}\n\
         ### Other calls: layouts, masks, regions\n\n{}\n\
         ### What the checks of a public call cost\n\n{}\n\
         ### Growth with the size\n\n{}\n\
         ### Memory\n\n{}",
        machine(),
        targets(lines, &sides),
        others(is_check),
        others(|key| key.shape.columns == "random" && !is_check(key)),
        others(|key| !matches!(key.shape.columns, "" | "banded" | "random")),
        others(|key| key.shape.columns.is_empty()),
        checks(lines, &sides),
        exponents::text(lines),
        memory_table::text(lines, resident)
    )
}

/// The calls that only look at a matrix or a topology, and the set operation.
fn is_check(key: &Key) -> bool {
    let calls = ["csr32 validate", "validate, ", "stats, ", "union, "];
    calls.iter().any(|call| key.call.starts_with(call))
}

fn is_work_of(work: &Key, call: &Key) -> bool {
    let own = Key {
        work: true,
        ..call.clone()
    };
    *work == own
}

fn sides(lines: &[Line]) -> Vec<usize> {
    let rows = lines.iter().flat_map(|line| &line.rows);
    let mut sides: Vec<usize> = rows.map(|row| row.side).collect();
    sides.sort_unstable();
    sides.dedup();
    sides
}

/// The processor's kind and how many there are; no name of the machine.
fn machine() -> String {
    let text = fs::read_to_string("/proc/cpuinfo").unwrap_or_default();
    let models: Vec<&str> = text
        .lines()
        .filter(|line| line.starts_with("model name"))
        .filter_map(|line| Some(line.split_once(':')?.1.trim()))
        .collect();
    match models.first() {
        Some(model) => format!("{} cores, {model}", models.len()),
        None => "a machine that does not tell its kind".into(),
    }
}

fn heading(sides: &[usize], before: &[&str], after: &[&str]) -> Vec<String> {
    let sides = sides.iter().map(|&side| grouped(side));
    let before = before.iter().map(|cell| cell.to_string());
    let after = after.iter().map(|cell| cell.to_string());
    before.chain(sides).chain(after).collect()
}

/// The ratio at each side, and both times at the largest.
fn ratio_cells(line: &Line, sides: &[usize]) -> Vec<String> {
    let ratio = |side: &usize| line.at(*side).and_then(|row| row.ratio());
    let mut cells: Vec<String> = sides
        .iter()
        .map(|side| ratio(side).map_or("-".into(), figure))
        .collect();
    let last = sides.last().and_then(|&side| line.at(side));
    cells.push(last.map_or("-".into(), |row| figure(row.port.median)));
    let rust = last.and_then(|row| row.rust);
    cells.push(rust.map_or("-".into(), |rust| figure(rust.median)));
    cells
}

fn ratios(lines: &[Line], sides: &[usize], wanted: impl Fn(&Key) -> bool) -> String {
    let rows: Vec<Vec<String>> = lines
        .iter()
        .filter(|line| wanted(line.key))
        .map(|line| {
            let names = [called(line.key), line.key.named()];
            names.into_iter().chain(ratio_cells(line, sides)).collect()
        })
        .collect();
    table(
        &heading(sides, &["call", "input"], &["port, µs", "Rust, µs"]),
        &rows,
    )
}

fn targets(lines: &[Line], sides: &[usize]) -> String {
    let mut rows = vec![];
    for line in lines {
        let Some(target) = line.key.target() else {
            continue;
        };
        let over: Vec<String> = line
            .rows
            .iter()
            .filter(|row| row.ratio().is_some_and(|ratio| ratio > target))
            .map(|row| grouped(row.side))
            .collect();
        let verdict = match over.is_empty() {
            true => "met".into(),
            false => format!("over at {}", over.join("; ")),
        };
        let mut row = vec![called(line.key), line.key.named()];
        row.extend(ratio_cells(line, sides));
        row.extend([format!("{target:.1}"), verdict]);
        rows.push(row);
    }
    let after = ["port, µs", "Rust, µs", "target", "verdict"];
    table(&heading(sides, &["call", "input"], &after), &rows)
}

/// The whole call beside the Rust's, and the part of its time that its work
/// does not take.
fn checks(lines: &[Line], sides: &[usize]) -> String {
    let mut rows = vec![];
    for call in lines.iter().filter(|line| !line.key.work) {
        let Some(work) = lines.iter().find(|work| is_work_of(work.key, call.key)) else {
            continue;
        };
        let mut row = strings([call.key.call, &call.key.named()]);
        for &side in sides {
            row.push(share(call, work, side).unwrap_or("-".into()));
        }
        let last = sides.last().and_then(|&side| cost(call, work, side));
        row.push(last.map_or("-".into(), figure));
        rows.push(row);
    }
    let after = ["checks, µs"];
    table(&heading(sides, &["call", "input"], &after), &rows)
}

/// In microseconds.
fn cost(call: &Line, work: &Line, side: usize) -> Option<f64> {
    let (call, work) = (call.at(side)?, work.at(side)?);
    Some((call.port.median - work.port.median).max(0.0))
}

fn share(call: &Line, work: &Line, side: usize) -> Option<String> {
    let row = call.at(side)?;
    let ratio = figure(row.ratio()?);
    Some(match cost(call, work, side) {
        Some(cost) => format!("{ratio} ({:.0} %)", 100.0 * cost / row.port.median),
        None => ratio,
    })
}
