//! How the time grows with the side: exponents, and which side's is larger.

use super::Line;
use super::figures::{strings, table};
use crate::bench::{Key, Row, Shape};
use crate::measure::Times;

/// A time's own variation counts as at least so much: medians of one row differ
/// by as much from run to run, however close its samples lie.
const LEAST_SPREAD: f64 = 0.05;

/// Between the first and the last of the upper sides. At 1,000 the Rust's time
/// is in part that of its allocations, which hides how its work grows.
struct Growth {
    port: f64,
    rust: f64,
    margin: f64,
    /// The port's exponent is the larger one in each step between two sides. If
    /// in one only, its lists leave a cache there.
    steady: bool,
}

impl Growth {
    /// Of the last three sides, or of the last two.
    fn of(line: &Line) -> Option<Self> {
        let rows = &line.rows[line.rows.len().saturating_sub(3)..];
        let (first, last) = (rows.first()?, rows.last()?);
        let [port, rust] = exponents(first, last)?;
        let times = [first.port, last.port, first.rust?, last.rust?];
        let squares = times.map(|times| times.spread.max(LEAST_SPREAD).powi(2));
        let mut steps = rows
            .windows(2)
            .filter_map(|step| exponents(step[0], step[1]));
        Some(Self {
            port,
            rust,
            margin: 2.0 * squares.iter().sum::<f64>().sqrt() / larger(first, last),
            steady: steps.all(|[port, rust]| port > rust),
        })
    }

    fn is_faster(&self) -> bool {
        self.steady && self.port > self.rust + self.margin
    }
}

/// The logarithm of the sides' ratio.
fn larger(first: &Row, last: &Row) -> f64 {
    (last.side as f64 / first.side as f64).ln()
}

/// The port's and the Rust's.
fn exponents(first: &Row, last: &Row) -> Option<[f64; 2]> {
    let of = |first: Times, last: Times| (last.median / first.median).ln();
    let times = [of(first.port, last.port), of(first.rust?, last.rust?)];
    let told = first.side < last.side && times.iter().all(|time| time.is_finite());
    told.then(|| times.map(|time| time / larger(first, last)))
}

pub fn text(lines: &[Line]) -> String {
    let mut keys: Vec<Key> = vec![];
    for line in lines.iter().filter(|line| Growth::of(line).is_some()) {
        let key = without_entries(line.key);
        if !keys.contains(&key) {
            keys.push(key);
        }
    }
    let rows: Vec<Vec<String>> = keys.iter().map(|key| row(lines, key)).collect();
    let heading = strings(["call", "input", "1 a row, or all", "5 a row", "16 a row"]);
    let faster = lines.iter().filter_map(faster).collect::<String>();
    let faster = match faster.as_str() {
        "" => "No call grows faster than the Rust's by more than its margin.\n".into(),
        _ => format!("Grow faster than the Rust's by more than the margin:\n\n{faster}"),
    };
    format!("{}\n{faster}", table(&heading, &rows))
}

/// The lines that differ in the entries of a row alone, with a cell for 1 (or
/// no such number), 5 and 16.
fn row(lines: &[Line], key: &Key) -> Vec<String> {
    let mut row = vec![called(key), key.named(), "".into(), "".into(), "".into()];
    for line in lines
        .iter()
        .filter(|line| without_entries(line.key) == *key)
    {
        let place = match line.key.shape.entries {
            16 => 4,
            5 => 3,
            _ => 2,
        };
        row[place] = cell(line);
    }
    row
}

fn without_entries(key: &Key) -> Key {
    let shape = Shape {
        entries: 0,
        ..key.shape
    };
    Key {
        shape,
        ..key.clone()
    }
}

pub fn called(key: &Key) -> String {
    match key.work {
        true => format!("{}, work", key.call),
        false => key.call.into(),
    }
}

fn cell(line: &Line) -> String {
    let Some(growth) = Growth::of(line) else {
        return String::new();
    };
    let mark = if growth.is_faster() { " (faster)" } else { "" };
    format!("{:.2} / {:.2}{mark}", growth.port, growth.rust)
}

fn faster(line: &Line) -> Option<String> {
    let growth = Growth::of(line)?;
    growth.is_faster().then(|| {
        format!(
            "- {}, {}: {:.2}, the Rust {:.2}, margin {:.2}\n",
            called(line.key),
            line.key.named(),
            growth.port,
            growth.rust,
            growth.margin
        )
    })
}
