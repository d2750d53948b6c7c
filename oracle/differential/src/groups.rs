//! The groups of calls, and one call of any of them.
//!
//! The rest of the program knows a group only by the two traits here. A new
//! group is a module below this one whose `Call` has both, and a line in
//! `groups!`.

pub mod csr32;
pub mod growth;
pub mod job;
pub mod layout;
pub mod local;
pub mod mask;
pub mod prepared;
pub mod topology;
pub mod word;

pub use job::{answer_text as job_answer, recorded as recorded_jobs};

use crate::answer::Answer;
use crate::parts::Parts;
use crate::rng::Rng;

/// One call of a group, with all that it is handed.
pub trait GroupCall {
    /// The function's place in the group's list, from 0.
    fn place(&self) -> usize;

    fn parts(&mut self) -> Parts<'_>;

    /// The port's answer; the lists are left as the port left them.
    fn ask_port(&mut self) -> Answer;

    /// The expected answer, or as an error the expected refusal; the lists are
    /// left as they must stand then.
    fn expect(&mut self) -> Result<Answer, Answer>;

    /// Of the calls of a function that get the same number, those that are
    /// told apart here are recorded in equal shares.
    fn told_apart(&self, answer: Answer) -> u64 {
        answer.none_zero_or_more()
    }
}

/// A whole group, by the type of its calls.
pub trait GroupCalls: GroupCall + Sized {
    const NAME: &'static str;
    const FUNCTIONS: &'static [Function];
    /// So many of its random calls come in each round.
    const SHARE: usize = 1;

    /// The examples that document 01 gives, with 01's answers.
    fn examples() -> Vec<(Self, Answer)>;

    fn fixed(run: &mut dyn FnMut(Self));

    fn random(rng: &mut Rng) -> Self;

    /// A few cases at the edges, for the recorded answers.
    fn edges(_offer: &mut dyn FnMut(Self)) {}

    /// Calls that no record has room for, for the self-test.
    fn unrecorded() -> Vec<Self> {
        vec![]
    }
}

/// A function of the port, and the refusals it can give.
pub type Function = (&'static str, &'static [u32]);

/// The same as `GroupCalls`, with calls of any group.
pub struct Group {
    pub name: &'static str,
    pub functions: &'static [Function],
    pub share: usize,
    pub examples: fn() -> Vec<(Call, Answer)>,
    pub fixed: fn(&mut dyn FnMut(Call)),
    pub random: fn(&mut Rng) -> Call,
    pub edges: fn(&mut dyn FnMut(Call)),
    pub unrecorded: fn() -> Vec<Call>,
}

impl Group {
    const fn of<C: GroupCalls + Into<Call>>() -> Self {
        Self {
            name: C::NAME,
            functions: C::FUNCTIONS,
            share: C::SHARE,
            examples: || {
                let examples = C::examples().into_iter();
                examples.map(|(call, told)| (call.into(), told)).collect()
            },
            fixed: |run| C::fixed(&mut |call| run(call.into())),
            random: |rng| C::random(rng).into(),
            edges: |offer| C::edges(&mut |call| offer(call.into())),
            unrecorded: || C::unrecorded().into_iter().map(C::into).collect(),
        }
    }
}

macro_rules! groups {
    ($($variant:ident($module:ident),)*) => {
        pub static GROUPS: &[Group] = &[$(Group::of::<$module::Call>()),*];

        #[derive(Clone, PartialEq)]
        pub enum Call {
            $($variant($module::Call)),*
        }

        $(impl From<$module::Call> for Call {
            fn from(call: $module::Call) -> Self {
                Self::$variant(call)
            }
        })*

        impl Call {
            pub fn inner(&self) -> &dyn GroupCall {
                match self {
                    $(Self::$variant(call) => call),*
                }
            }

            pub fn inner_mut(&mut self) -> &mut dyn GroupCall {
                match self {
                    $(Self::$variant(call) => call),*
                }
            }

            fn group_name(&self) -> &'static str {
                match self {
                    $(Self::$variant(_) => $module::Call::NAME),*
                }
            }

            pub fn function(&self) -> Function {
                match self {
                    $(Self::$variant(call) => $module::Call::FUNCTIONS[call.place()]),*
                }
            }
        }
    };
}

groups! {
    Word(word),
    Csr32(csr32),
    Mask(mask),
    Layout(layout),
    Topology(topology),
    Growth(growth),
    Local(local),
    Prepared(prepared),
    Job(job),
}

pub fn named(name: &str) -> Option<&'static Group> {
    GROUPS.iter().find(|group| group.name == name)
}

/// The functions of some groups, one after the other.
pub fn functions(groups: &[&'static Group]) -> impl Iterator<Item = &'static Function> {
    groups.iter().flat_map(|group| group.functions)
}

/// Where the call's function stands among them, from 0.
pub fn place(groups: &[&'static Group], call: &Call) -> Option<usize> {
    let own = groups
        .iter()
        .position(|group| group.name == call.group_name())?;
    Some(functions(&groups[..own]).count() + call.inner().place())
}
