//! Compares the port with the original Rust, call by call.
//!
//! ```text
//! differential                         fixed cases and fixed seeds
//! differential only GROUP              the same for one group of calls
//! differential soak SECONDS [SEED]     random cases for so long
//! differential record FOLDER           writes recorded answers
//! differential record-layout FOLDER    writes those of the calls on layouts
//! differential record-topology FOLDER  writes those of the calls on topologies
//! differential record-growth FOLDER    writes those of the calls on regions
//! differential record-local FOLDER     writes those of the calls on local systems
//! differential record-jobs FOLDER      writes those of jobs
//! differential self-test               wrong expectations must be reported
//! ```

// An answer holds the values of the longest record, and is made once a call.
#![allow(clippy::result_large_err)]
#![forbid(unsafe_code)]

mod answer;
mod compare;
mod examples;
mod expected;
mod groups;
mod parts;
mod port;
mod record;
mod rng;
mod self_test;
mod typed;

use std::env;
use std::io;
use std::num::NonZero;
use std::path::Path;
use std::sync::atomic::{AtomicUsize, Ordering};
use std::thread;
use std::time::{Duration, Instant, SystemTime, UNIX_EPOCH};

use crate::compare::{Tally, fail};
use crate::groups::{GROUPS, Group, named, place};
use crate::record::{FORMATS, Format};
use crate::rng::Rng;

fn main() {
    let arguments: Vec<String> = env::args().skip(1).collect();
    let arguments: Vec<&str> = arguments.iter().map(String::as_str).collect();
    match arguments.as_slice() {
        [] => whole_run(&all_groups()),
        ["only", name] => whole_run(&[group(name)]),
        ["soak", seconds] => soak(number(seconds), seed_from_clock()),
        ["soak", seconds, seed] => soak(number(seconds), number(seed)),
        ["self-test"] => self_test::run(&record::all_calls()),
        ["record-jobs", folder] => written(folder, record::jobs::write(Path::new(folder))),
        [argument, folder] => record(format(argument), folder),
        _ => usage(),
    }
}

fn usage() -> ! {
    let records: String = FORMATS
        .iter()
        .map(|format| format!(" | {} FOLDER", format.argument))
        .collect();
    fail(&format!(
        "usage: differential [only GROUP | soak SECONDS [SEED]{records} | record-jobs FOLDER | self-test]"
    ))
}

fn all_groups() -> Vec<&'static Group> {
    GROUPS.iter().collect()
}

fn number(text: &str) -> u64 {
    match text.parse() {
        Ok(number) => number,
        Err(error) => fail(&format!("{text}: {error}")),
    }
}

fn group(name: &str) -> &'static Group {
    match named(name) {
        Some(group) => group,
        None => fail(&format!("{name}: no such group of calls")),
    }
}

fn format(argument: &str) -> &'static Format {
    match FORMATS.iter().find(|format| format.argument == argument) {
        Some(format) => format,
        None => usage(),
    }
}

fn record(format: &Format, folder: &str) {
    written(folder, record::write(format, Path::new(folder)));
}

fn written(folder: &str, result: io::Result<()>) {
    if let Err(error) = result {
        fail(&format!("{folder}: {error}"));
    }
}

/// A part of a run, which needs none of the others.
type Piece<'run> = Box<dyn Fn(&mut Tally<'run>) + Send + Sync + 'run>;

fn whole_run(groups: &[&'static Group]) {
    let mut recorded = record::all_calls();
    recorded.retain(|call| place(groups, call).is_some());
    self_test::run(&recorded);
    let mut pieces: Vec<Piece> = vec![];
    for seed in 100..104 {
        pieces.push(Box::new(move |tally| {
            let mut rng = Rng::new(seed);
            for _ in 0..500_000 {
                random_round(groups, &mut rng, tally);
            }
        }));
    }
    for group in groups {
        pieces.push(Box::new(|tally| {
            (group.fixed)(&mut |call| tally.compare(call));
        }));
    }
    pieces.push(Box::new(|tally| examples::run(groups, tally)));
    pieces.push(Box::new(move |tally| {
        for call in &recorded {
            tally.compare(call.clone());
        }
    }));
    let tally = side_by_side(groups, &pieces);
    tally.demand_every_number();
    finish(&tally);
}

fn soak(seconds: u64, seed: u64) {
    println!("soak: {seconds} seconds from seed {seed}");
    let start = Instant::now();
    let groups = all_groups();
    let mut pieces: Vec<Piece> = vec![];
    for worker in 0..workers() as u64 {
        let groups = &groups;
        pieces.push(Box::new(move |tally| {
            let mut rng = Rng::new(seed.wrapping_add(worker));
            while start.elapsed() < Duration::from_secs(seconds) {
                for _ in 0..1_000 {
                    random_round(groups, &mut rng, tally);
                }
            }
        }));
    }
    finish(&side_by_side(&groups, &pieces));
}

fn workers() -> usize {
    thread::available_parallelism().map_or(1, NonZero::get)
}

/// Each worker takes the next piece that nobody has taken.
fn side_by_side<'run>(groups: &'run [&'static Group], pieces: &[Piece<'run>]) -> Tally<'run> {
    let taken = AtomicUsize::new(0);
    let work = || {
        let mut tally = Tally::new(groups);
        while let Some(piece) = pieces.get(taken.fetch_add(1, Ordering::Relaxed)) {
            piece(&mut tally);
        }
        tally
    };
    let mut whole = Tally::new(groups);
    thread::scope(|scope| {
        let running: Vec<_> = (0..workers()).map(|_| scope.spawn(work)).collect();
        for worker in running {
            whole.add(&worker.join().expect("a worker panicked"));
        }
    });
    whole
}

fn random_round(groups: &[&Group], rng: &mut Rng, tally: &mut Tally) {
    for group in groups {
        for _ in 0..group.share {
            tally.compare((group.random)(rng));
        }
    }
}

fn finish(tally: &Tally) {
    tally.print();
    println!(
        "differential: {} comparisons, 0 differences",
        tally.comparisons()
    );
}

fn seed_from_clock() -> u64 {
    let now = SystemTime::now().duration_since(UNIX_EPOCH);
    now.map_or(0, |since| since.as_nanos() as u64)
}
