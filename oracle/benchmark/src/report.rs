//! What `write` leaves: every row, the tables and the plot.

mod exponents;
mod figures;
mod memory_table;
mod plot;
mod tables;

use std::fs;
use std::io;
use std::path::Path;

use crate::bench::{Key, Row};
use crate::measure::Times;

/// The tables stand between these two lines of BENCHMARKS.md.
const BEGIN: &str = "<!-- tables: written by tools/benchmark -->";
const END: &str = "<!-- end of the tables -->";

/// The rows that differ in their side alone.
pub struct Line<'a> {
    pub key: &'a Key,
    pub rows: Vec<&'a Row>,
}

impl<'a> Line<'a> {
    pub fn at(&self, side: usize) -> Option<&'a Row> {
        self.rows.iter().find(|row| row.side == side).copied()
    }
}

pub fn write(folder: &Path, rows: &[Row], resident: Option<[f64; 3]>) -> io::Result<()> {
    let lines = lines(rows);
    fs::write(folder.join("benchmarks.csv"), csv(rows))?;
    fs::write(folder.join("benchmarks.svg"), plot::text(&lines))?;
    let document = folder.join("BENCHMARKS.md");
    let text = fs::read_to_string(&document)?;
    let parts = text
        .split_once(BEGIN)
        .and_then(|(before, rest)| Some((before, rest.split_once(END)?.1)));
    let Some((before, after)) = parts else {
        let missing = format!("BENCHMARKS.md lacks the lines {BEGIN} and {END}");
        return Err(io::Error::other(missing));
    };
    let tables = tables::text(&lines, resident);
    fs::write(
        document,
        format!("{before}{BEGIN}\n\n{tables}\n{END}{after}"),
    )
}

/// Those of one call stand together.
fn lines(rows: &[Row]) -> Vec<Line<'_>> {
    let mut lines: Vec<Line> = vec![];
    let first = |call| rows.iter().position(|row| row.key.call == call);
    for row in rows {
        match lines.iter_mut().find(|line| *line.key == row.key) {
            Some(line) => line.rows.push(row),
            None => lines.push(Line {
                key: &row.key,
                rows: vec![row],
            }),
        }
    }
    lines.sort_by_key(|line| first(line.key.call));
    lines
}

fn csv(rows: &[Row]) -> String {
    let mut text = String::from(
        "call,part,columns,entries,input,side,samples,port_us,port_spread,rust_us,rust_spread,\
         ratio,target,lent_bytes,rust_bytes\n",
    );
    for row in rows {
        let key = &row.key;
        let rust = |figure: fn(Times) -> f64| row.rust.map(|rust| format!("{:.4}", figure(rust)));
        let memory = row.memory.map(|memory| [memory.lent, memory.rust]);
        let memory = memory.map(|memory| memory.map(|bytes| bytes.to_string()));
        let [lent, most] = memory.unwrap_or_default();
        let fields = [
            format!("\"{}\"", key.call),
            if key.work { "work" } else { "call" }.into(),
            format!("\"{}\"", key.shape.columns),
            key.shape.entries.to_string(),
            format!("\"{}\"", key.input),
            row.side.to_string(),
            row.port.samples.to_string(),
            format!("{:.4}", row.port.median),
            format!("{:.4}", row.port.spread),
            rust(|rust| rust.median).unwrap_or_default(),
            rust(|rust| rust.spread).unwrap_or_default(),
            row.ratio()
                .map(|ratio| format!("{ratio:.4}"))
                .unwrap_or_default(),
            key.target()
                .map(|target| target.to_string())
                .unwrap_or_default(),
            lent,
            most,
        ];
        text.push_str(&fields.join(","));
        text.push('\n');
    }
    text
}
