//! Comparing the port with what is expected, and counting.

use std::panic::{AssertUnwindSafe, catch_unwind};
use std::process::exit;

use crate::answer::Answer;
use crate::groups::{Call, Group, functions, place};
use crate::typed;

/// Document 01's numbers go up to 27.
const NUMBERS: usize = 28;

/// An answer, and the call with its lists as they stand afterwards.
#[derive(Clone)]
pub struct Outcome {
    pub answer: Answer,
    pub after: Call,
}

pub fn expected(call: &Call) -> Outcome {
    let mut after = call.clone();
    match catch_unwind(AssertUnwindSafe(|| after.inner_mut().expect())) {
        Ok(Ok(answer) | Err(answer)) => Outcome { answer, after },
        Err(_) => fail(&format!(
            "NO EXPECTATION: the original Rust panicked, or 01 has no number for its error\n{}",
            shown(call)
        )),
    }
}

pub fn got(call: &Call) -> Outcome {
    let mut after = call.clone();
    let answer = after.inner_mut().ask_port();
    Outcome { answer, after }
}

/// A report if answer or lists differ in anything.
pub fn difference(call: &Call, expected: &Outcome, got: &Outcome) -> Option<String> {
    if expected.answer == got.answer && expected.after == got.after {
        return None;
    }
    Some(format!(
        "DIFFERENCE\n{}expected {}got {}",
        shown(call),
        shown_outcome(expected),
        shown_outcome(got),
    ))
}

fn shown(call: &Call) -> String {
    let (function, _) = call.function();
    let mut call = call.clone();
    let parts = call.inner_mut().parts();
    format!("{function}\n{}{}", parts.show_numbers(), parts.show_lists())
}

fn shown_outcome(outcome: &Outcome) -> String {
    let mut after = outcome.after.clone();
    let lists = after.inner_mut().parts().show_lists();
    format!("{:?}, then\n{lists}", outcome.answer)
}

pub fn fail(message: &str) -> ! {
    println!("{message}");
    exit(1);
}

/// How often each function of some groups was answered with each number.
pub struct Tally<'groups> {
    groups: &'groups [&'static Group],
    counts: Vec<[u64; NUMBERS]>,
}

impl<'groups> Tally<'groups> {
    pub fn new(groups: &'groups [&'static Group]) -> Self {
        let counts = vec![[0; NUMBERS]; functions(groups).count()];
        Self { groups, counts }
    }

    /// Ends the program at a difference.
    pub fn compare(&mut self, call: Call) {
        let expected = expected(&call);
        let got = got(&call);
        if let Some(report) = difference(&call, &expected, &got) {
            fail(&report);
        }
        if let Some(report) = typed::difference(&call, &expected) {
            fail(&report);
        }
        let place = place(self.groups, &call).expect("only these groups are compared");
        self.counts[place][expected.answer.number as usize] += 1;
    }

    /// The comparisons of another tally of the same groups.
    pub fn add(&mut self, other: &Self) {
        for (own, others) in self.counts.iter_mut().zip(&other.counts) {
            for (count, more) in own.iter_mut().zip(others) {
                *count += more;
            }
        }
    }

    pub fn comparisons(&self) -> u64 {
        self.counts.iter().flatten().sum()
    }

    /// One line for each function that was called.
    pub fn print(&self) {
        for ((function, numbers), counts) in functions(self.groups).zip(&self.counts) {
            let total: u64 = counts.iter().sum();
            if total == 0 {
                continue;
            }
            let refused: String = numbers
                .iter()
                .map(|&number| format!(", {number}: {}", counts[number as usize]))
                .collect();
            println!(
                "{function}  {total} comparisons (accepted: {}{refused})",
                counts[0]
            );
        }
    }

    /// Ends the program if one of the functions was never accepted, or never
    /// refused with a number it can give: then the cases are too weak.
    pub fn demand_every_number(&self) {
        for ((function, numbers), counts) in functions(self.groups).zip(&self.counts) {
            for &number in numbers.iter().chain(&[0]) {
                if counts[number as usize] == 0 {
                    fail(&format!("{function}: no case with number {number}"));
                }
            }
        }
    }
}
