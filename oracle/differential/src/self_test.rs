//! A test of the comparing itself: a wrong expectation must be reported.

use crate::answer::VALUES;
use crate::compare::{Outcome, difference, expected, fail, got};
use crate::groups::Call;
use crate::typed;

/// So many of the spoiled outcomes differ in the answer, the others in a list.
const ANSWERS: usize = 4 + VALUES;

/// Takes the recorded calls, which cover every function and every number, and
/// spoils each part of each expected answer and each element of each list.
pub fn run(recorded: &[Call]) {
    let mut wrong = 0;
    for call in recorded {
        let right = expected(call);
        let got = got(call);
        if let Some(report) = difference(call, &right, &got) {
            fail(&report);
        }
        for spoiled in spoiled(&right) {
            wrong += 1;
            if difference(call, &spoiled, &got).is_none() {
                let (function, _) = call.function();
                fail(&format!(
                    "self-test: a wrong expectation of {function} was not reported"
                ));
            }
        }
    }
    println!("self-test: {wrong} wrong expectations, {wrong} reported");
    run_typed(recorded);
}

/// The same of the typed layer, on calls that are accepted. It reports every
/// wrong answer, and every wrong element of a list that is part of its own
/// answer; it has no scratch, and nothing past an answer.
fn run_typed(recorded: &[Call]) {
    let mut answers = 0;
    let mut elements = 0;
    for call in recorded {
        let right = expected(call);
        if let Some(report) = typed::difference(call, &right) {
            fail(&report);
        }
        if right.answer.number != 0 {
            continue;
        }
        for (place, spoiled) in spoiled(&right).iter().enumerate() {
            let reported = typed::difference(call, spoiled).is_some();
            match place < ANSWERS {
                true if !reported => {
                    let (function, _) = call.function();
                    fail(&format!(
                        "self-test: a wrong expectation of {function} was not reported of the typed layer"
                    ));
                }
                true => answers += 1,
                false => elements += usize::from(reported),
            }
        }
    }
    println!(
        "self-test: typed layer, {answers} wrong answers and {elements} wrong elements reported"
    );
}

fn spoiled(right: &Outcome) -> Vec<Outcome> {
    let mut all = vec![right.clone(); ANSWERS];
    all[0].answer.number += 1;
    all[1].answer.present ^= true;
    all[2].answer.expected += 1;
    all[3].answer.actual += 1;
    for (value, wrong) in all[4..].iter_mut().enumerate() {
        wrong.answer.values[value] = wrong.answer.values[value].wrapping_add(1);
    }
    for (list, length) in lengths(&mut right.after.clone()).into_iter().enumerate() {
        for place in 0..length {
            let mut wrong = right.clone();
            let mut parts = wrong.after.inner_mut().parts();
            parts.lists[list].1.spoil(place);
            all.push(wrong);
        }
    }
    all
}

fn lengths(call: &mut Call) -> Vec<usize> {
    let lists = call.inner_mut().parts().lists;
    lists.iter().map(|(_, list)| list.len()).collect()
}
