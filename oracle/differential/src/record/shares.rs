//! Which calls are recorded: of each kind its share.

use std::collections::BTreeMap;

use super::format::Format;
use crate::compare::expected;
use crate::groups::Call;

/// The calls taken so far, by kind.
pub struct Shares<'format> {
    format: &'format Format,
    taken: BTreeMap<Kind, Vec<Call>>,
}

/// The function, the number, and what else its group tells apart.
type Kind = (u8, u32, u64);

impl<'format> Shares<'format> {
    pub fn new(format: &'format Format) -> Self {
        Self {
            format,
            taken: BTreeMap::new(),
        }
    }

    pub fn offer(&mut self, mut call: Call) {
        if !self.format.fits(&mut call) {
            return;
        }
        let answer = expected(&call).answer;
        let most = if answer.number == 0 {
            self.format.accepted
        } else {
            self.format.refused
        };
        let kind = (
            self.format.code(&call),
            answer.number,
            call.inner().told_apart(answer),
        );
        let share = self.taken.entry(kind).or_default();
        if share.len() < most && !share.contains(&call) {
            share.push(call);
        }
    }

    pub fn taken(self) -> Vec<Call> {
        self.taken.into_values().flatten().collect()
    }
}
