//! How figures and tables are written.

/// Three digits at least, thousands parted.
pub fn figure(value: f64) -> String {
    match value {
        100.0.. => grouped(value.round() as usize),
        10.0..100.0 => format!("{value:.1}"),
        0.1..10.0 => format!("{value:.2}"),
        _ => format!("{value:.3}"),
    }
}

pub fn grouped(value: usize) -> String {
    let digits = value.to_string();
    let mut text = String::new();
    for (place, digit) in digits.chars().enumerate() {
        if place > 0 && (digits.len() - place).is_multiple_of(3) {
            text.push(',');
        }
        text.push(digit);
    }
    text
}

pub fn megabytes(bytes: usize) -> String {
    figure(bytes as f64 / 1e6)
}

/// A table of Markdown; nothing if there is no row.
pub fn table(heading: &[String], rows: &[Vec<String>]) -> String {
    if rows.is_empty() {
        return "(none)\n".into();
    }
    let line = |cells: &[String]| format!("| {} |\n", cells.join(" | "));
    let mut text = line(heading);
    text.push_str(&format!("|{}\n", "---|".repeat(heading.len())));
    for row in rows {
        text.push_str(&line(row));
    }
    text
}

pub fn strings<const N: usize>(cells: [&str; N]) -> Vec<String> {
    cells.map(String::from).to_vec()
}
