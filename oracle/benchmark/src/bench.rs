//! The rows: what one is about, how it is measured and how it is printed.

use std::process::exit;
use std::time::Instant;

use crate::measure::{Effort, Sample, Times, in_turn};
use crate::memory;
use crate::shapes::SCATTERED;

/// The matrix of a row; no `columns` and 0 entries for a row without one.
#[derive(Clone, Copy, PartialEq)]
pub struct Shape {
    pub columns: &'static str,
    /// In a row.
    pub entries: usize,
}

impl Shape {
    pub const NONE: Self = Self {
        columns: "",
        entries: 0,
    };
}

/// All but the side: rows that have it in common are one line of a table.
#[derive(Clone, PartialEq)]
pub struct Key {
    pub call: &'static str,
    /// The work alone, without the checks of the public call.
    pub work: bool,
    pub shape: Shape,
    /// The region, the blocks, or what else the input has.
    pub input: String,
}

impl Key {
    pub fn named(&self) -> String {
        let entries = match self.shape.entries {
            0 => String::new(),
            entries => format!("{entries} a row"),
        };
        let parts = [self.shape.columns, &entries, &self.input];
        let parts: Vec<&str> = parts.into_iter().filter(|part| !part.is_empty()).collect();
        parts.join(", ")
    }

    /// At most so much of the Rust's time, on chromatogram-like input. A call's work is
    /// judged where its checks are measured apart, else the whole call.
    pub fn target(&self) -> Option<f64> {
        if !matches!(self.shape.columns, "" | "banded") || self.input.contains(SCATTERED) {
            return None;
        }
        match (self.call, self.work) {
            ("from_csr32, one side" | "from_csr32, both sides", false) => Some(0.7),
            ("prepare_region", false) => Some(0.7),
            ("prepare_local_numeric_plan", true) => Some(0.3),
            (_, true) => Some(1.0),
            _ => None,
        }
    }
}

/// Bytes: the lists that the port is lent to write, and the most that the Rust
/// allocates.
#[derive(Clone, Copy)]
pub struct Memory {
    pub lent: usize,
    pub rust: usize,
}

pub struct Row {
    pub key: Key,
    pub side: usize,
    pub port: Times,
    pub rust: Option<Times>,
    pub memory: Option<Memory>,
}

impl Row {
    pub fn ratio(&self) -> Option<f64> {
        self.rust.map(|rust| self.port.median / rust.median)
    }
}

/// What a row is measured by.
pub struct Case<'a> {
    call: &'static str,
    work: bool,
    input: String,
    port: Sample<'a>,
    rust: Option<Sample<'a>>,
    memory: Option<Memory>,
}

impl<'a> Case<'a> {
    pub fn call(call: &'static str, input: impl Into<String>, port: Sample<'a>) -> Self {
        Self {
            call,
            work: false,
            input: input.into(),
            port,
            rust: None,
            memory: None,
        }
    }

    pub fn work(call: &'static str, input: impl Into<String>, port: Sample<'a>) -> Self {
        Self {
            work: true,
            ..Self::call(call, input, port)
        }
    }

    pub fn beside(mut self, rust: Sample<'a>) -> Self {
        self.rust = Some(rust);
        self
    }

    pub fn memory<O>(mut self, lent: usize, rust: impl FnOnce() -> O) -> Self {
        let rust = memory::taken(rust);
        self.memory = Some(Memory { lent, rust });
        self
    }
}

/// Where a row stands.
#[derive(Clone, Copy)]
pub struct Place {
    pub shape: Shape,
    pub side: usize,
}

pub struct Bench {
    effort: Effort,
    start: Instant,
    pub rows: Vec<Row>,
}

impl Bench {
    pub fn new(effort: Effort) -> Self {
        println!("One call in microseconds, the median of several samples, port and Rust in turn.");
        println!("`work`: the port's work many times after one check, less the work once after");
        println!("one check, beside calls of the Rust that follow one another. ±: half the");
        println!("distance between the quartiles of the samples. -: the Rust has no such call.");
        println!();
        println!(
            "{:<38} {:<44} {:>9} {:>13} {:>5} {:>13} {:>5} {:>9} {:>7}",
            "call", "input", "side", "port", "±", "Rust", "±", "ratio", "samples"
        );
        Self {
            effort,
            start: Instant::now(),
            rows: vec![],
        }
    }

    /// Measures a row, prints it and keeps it. What both sides
    /// left and answered is compared then, and if it differs the program ends.
    pub fn row(&mut self, place: Place, case: Case, agree: impl FnOnce() -> bool) {
        let (port, rust) = in_turn(self.effort, case.port, case.rust);
        let row = Row {
            key: Key {
                call: case.call,
                work: case.work,
                shape: place.shape,
                input: case.input,
            },
            side: place.side,
            port,
            rust,
            memory: case.memory,
        };
        println!("{}", shown(&row));
        if !agree() {
            println!("the results of port and Rust differ");
            exit(1);
        }
        self.rows.push(row);
    }

    pub fn finish(&self) {
        let seconds = self.start.elapsed().as_secs_f64();
        println!();
        println!("benchmark: {} rows, {seconds:.1} s in all", self.rows.len());
    }
}

fn shown(row: &Row) -> String {
    let call = match row.key.work {
        true => format!("{}, work", row.key.call),
        false => row.key.call.into(),
    };
    let part = |times: Times| format!("{:.0}%", 100.0 * times.spread);
    let or_none = |shown: Option<String>| shown.unwrap_or("-".into());
    format!(
        "{call:<38} {:<44} {:>9} {:>13.3} {:>5} {:>13} {:>5} {:>9} {:>7}",
        row.key.named(),
        row.side,
        row.port.median,
        part(row.port),
        or_none(row.rust.map(|rust| format!("{:.3}", rust.median))),
        or_none(row.rust.map(part)),
        or_none(row.ratio().map(|ratio| format!("{ratio:.3}"))),
        row.port.samples
    )
}
