//! What the original Rust does where document 01 adds a limit or a refusal.
//! One line each, for docs/DIFFERENCES.md: an item, the call, what the Rust
//! did, and in brackets the number that 01 gives.
//!
//! "Hand-made" marks a value with private fields that no constructor makes; it
//! is made through hybit_open, the same source with its fields public.

mod growth;
mod limits;
mod masks;
mod plans;
mod topologies;
mod values;

use std::env;
use std::fmt::Debug;
use std::panic::{UnwindSafe, catch_unwind, set_hook};
use std::process::Command;

fn main() {
    let arguments: Vec<String> = env::args().skip(1).collect();
    if let [word, name] = arguments.as_slice()
        && word == "child"
    {
        limits::child(name);
        return;
    }
    set_hook(Box::new(|_| {}));
    limits::run();
    values::run();
    growth::run();
    masks::run();
    topologies::run();
    plans::run();
    growth::empty_matrix();
}

/// Prints one line; a panic is caught and shown with its message.
fn line<T: Debug>(item: &str, call: &str, number: &str, work: impl FnOnce() -> T + UnwindSafe) {
    let did = match catch_unwind(work) {
        Ok(answer) => format!("{answer:?}"),
        Err(panic) => {
            let text = panic.downcast_ref::<String>().map(String::as_str);
            let text = text.or(panic.downcast_ref::<&str>().copied());
            format!("PANIC {}", text.unwrap_or_default())
        }
    };
    println!("{item} {call}: {did} [01: {number}]");
}

/// The same in a process of its own, for what ends the whole process.
fn line_of_child(item: &str, call: &str, number: &str, name: &str) {
    let program = env::current_exe().expect("this program has a path");
    let child = Command::new(program).args(["child", name]).output();
    let child = child.expect("this program starts");
    let said = [child.stdout, child.stderr].concat();
    let said = String::from_utf8_lossy(&said);
    println!(
        "{item} {call}: {}; {} [01: {number}]",
        child.status,
        said.lines().next().unwrap_or_default()
    );
}
