//! Copies the eight files into the build folder with every struct field and
//! every `pub(crate) fn` made pub. Nothing else is changed.

#[path = "../source.rs"]
mod source;

use std::fs;

fn main() {
    let from = source::folder();
    let to = source::out_folder();
    for name in source::FILES {
        let file = format!("{name}.rs");
        let text = fs::read_to_string(from.join(&file)).expect("the file can be read");
        fs::write(to.join(&file), opened(&text)).expect("the copy can be written");
    }
    source::write_root(&to);
}

fn opened(text: &str) -> String {
    let mut result = String::new();
    let mut inside_struct = false;
    for line in text.lines() {
        if line.starts_with("pub struct ") && line.ends_with('{') {
            inside_struct = true;
        } else if line.starts_with('}') {
            inside_struct = false;
        }
        if inside_struct && is_private_field(line) {
            result.push_str(&line.replacen("    ", "    pub ", 1));
        } else {
            result.push_str(&line.replacen("pub(crate) fn ", "pub fn ", 1));
        }
        result.push('\n');
    }
    result
}

fn is_private_field(line: &str) -> bool {
    let text = line.trim_start();
    line.starts_with("    ")
        && text.contains(": ")
        && !text.starts_with("pub ")
        && !text.starts_with("//")
}
