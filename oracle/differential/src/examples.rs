//! The examples that document 01 gives.

use crate::compare::{Tally, expected, fail};
use crate::groups::Group;

/// What this program expects must be what 01 says, and the port must agree.
pub fn run(groups: &[&Group], tally: &mut Tally) {
    let examples: Vec<_> = groups.iter().flat_map(|group| (group.examples)()).collect();
    println!("examples of document 01: {}", examples.len());
    for (call, answer) in examples {
        let found = expected(&call).answer;
        if found != answer {
            let (function, _) = call.function();
            fail(&format!(
                "{function}: 01 says {answer:?}, this program expects {found:?}"
            ));
        }
        tally.compare(call);
    }
}
