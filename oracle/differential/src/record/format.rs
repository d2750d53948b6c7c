//! How calls and answers are recorded.

use crate::compare::Outcome;
use crate::groups::{Call, Group, named, place};

/// At most so many elements in most of the recorded lists.
const LIST: usize = 16;

/// The same of the lists with one element for each column of a topology; a
/// multiple of LIST, so that such a list can be read in parts.
const LONG: usize = 144;

/// The same of the masks that a growth takes and writes, in words; four of them
/// are as long as LIST.
const MASK: usize = 4;

/// The same of counts, one for each node of several regions; a multiple of LIST.
const COUNTS: usize = 80;

/// The formats, each with the argument that asks for it.
pub static FORMATS: &[Format] = &[
    Format {
        argument: "record",
        groups: &["word", "csr32", "mask"],
        numbers: 4,
        lists: &[LIST; 3],
        values: 1,
        written: &[LIST],
        accepted: 20,
        refused: 9,
        seed: 3,
    },
    Format {
        argument: "record-layout",
        groups: &["layout"],
        numbers: 4,
        lists: &[LIST; 6],
        values: 2,
        written: &[LIST],
        accepted: 16,
        refused: 5,
        seed: 4,
    },
    // A call has up to three groups of three lists: pointers, word numbers or
    // columns, masks or values. They are a matrix or a side; the second side,
    // the columns or what is written; and what is written. Building both sides
    // then takes two lists of scratch. The pointers of the columns are long,
    // wherever they stand, and so is the first list of scratch.
    Format {
        argument: "record-topology",
        groups: &["topology"],
        numbers: 9,
        lists: &[
            LIST, LIST, LIST, LONG, LIST, LIST, LONG, LIST, LIST, LONG, LIST,
        ],
        values: 8,
        written: &[LIST, LIST, LIST, LONG, LIST, LIST, LONG, LIST],
        accepted: 4,
        refused: 1,
        seed: 5,
    },
    // Two sides, a layout, then four masks: what is handed in and the three
    // that are written, with room for few words each, so that they stand in a
    // list's room together; then counts or owners by block.
    Format {
        argument: "record-growth",
        groups: &["growth"],
        numbers: 8,
        lists: &[
            LIST, LIST, LIST, LIST, LIST, LIST, LIST, LIST, LIST, LIST, LIST, MASK, MASK, MASK,
            MASK, COUNTS,
        ],
        values: 10,
        written: &[MASK, MASK, MASK, COUNTS],
        accepted: 6,
        refused: 3,
        seed: 6,
    },
    // Two sides, a matrix (of a gather its plan and values), a mask, then the
    // five lists of a plan and the values that a gather writes.
    Format {
        argument: "record-local",
        groups: &["local"],
        numbers: 9,
        lists: &[
            LIST, LIST, LIST, LIST, LIST, LIST, LIST, LIST, LIST, MASK, LIST, LIST, LIST, LIST,
            LIST, LIST,
        ],
        values: 10,
        written: &[LIST; 6],
        accepted: 5,
        refused: 5,
        seed: 7,
    },
];

pub struct Format {
    pub argument: &'static str,
    groups: &'static [&'static str],
    /// Room for so many numbers in a recorded call, and the room of each list.
    numbers: usize,
    lists: &'static [usize],
    /// Room for so many values in a recorded answer, and the room of each list
    /// that the call may write.
    values: usize,
    written: &'static [usize],
    /// How many calls of each kind are recorded.
    pub accepted: usize,
    pub refused: usize,
    /// Of the random calls to choose from.
    pub seed: u64,
}

impl Format {
    pub fn groups(&self) -> Vec<&'static Group> {
        let names = self.groups.iter();
        names.map(|name| named(name).expect(name)).collect()
    }

    /// The function's place among those of this format, from 1.
    pub fn code(&self, call: &Call) -> u8 {
        let place = place(&self.groups(), call).expect("a call of one of the format's groups");
        u8::try_from(place + 1).expect("fewer than 256 functions")
    }

    /// Is there room for the call?
    pub fn fits(&self, call: &mut Call) -> bool {
        let parts = call.inner_mut().parts();
        let lists: Vec<usize> = parts.lists.iter().map(|(_, list)| list.len()).collect();
        let written: Vec<usize> = parts.written.iter().map(|&list| lists[list]).collect();
        fit(&lists, self.lists) && fit(&written, self.written)
    }

    /// The code, 7 zero bytes, the numbers, the lists' lengths, the lists.
    pub fn call_bytes(&self, call: &mut Call) -> Vec<u8> {
        let mut bytes = vec![self.code(call)];
        bytes.resize(8, 0);
        let parts = call.inner_mut().parts();
        let numbers: Vec<u64> = parts.numbers.iter().map(|&(_, number)| number).collect();
        let lists: Vec<Vec<u64>> = parts.lists.iter().map(|(_, list)| list.widened()).collect();
        let lengths: Vec<u64> = lists.iter().map(|list| list.len() as u64).collect();
        append(&mut bytes, &numbers, self.numbers);
        append(&mut bytes, &lengths, self.lists.len());
        append_lists(&mut bytes, &lists, self.lists);
        bytes
    }

    /// The answer's numbers, then the lists that the call may write.
    pub fn answer_bytes(&self, outcome: &mut Outcome) -> Vec<u8> {
        let answer = outcome.answer;
        let mut bytes = vec![];
        let numbers = [
            u64::from(answer.number),
            u64::from(answer.present),
            answer.expected,
            answer.actual,
        ];
        append(&mut bytes, &numbers, numbers.len());
        let (recorded, others) = answer.values.split_at(self.values);
        assert!(
            others.iter().all(|&value| value == 0),
            "no room for {answer:?}"
        );
        append(&mut bytes, recorded, self.values);
        let parts = outcome.after.inner_mut().parts();
        let written = parts
            .written
            .iter()
            .map(|&list| parts.lists[list].1.widened());
        append_lists(&mut bytes, &written.collect::<Vec<_>>(), self.written);
        bytes
    }
}

fn fit(lengths: &[usize], rooms: &[usize]) -> bool {
    let pairs = lengths.iter().zip(rooms);
    lengths.len() <= rooms.len() && pairs.into_iter().all(|(length, room)| length <= room)
}

/// Each list over its room, then zeros over the rooms that are left.
fn append_lists(bytes: &mut Vec<u8>, lists: &[Vec<u64>], rooms: &[usize]) {
    assert!(lists.len() <= rooms.len(), "no room for {lists:?}");
    let none = vec![];
    let lists = lists.iter().chain(std::iter::repeat(&none));
    for (list, &room) in lists.zip(rooms) {
        append(bytes, list, room);
    }
}

/// The numbers in little-endian order, then zeros up to `room` numbers.
fn append(bytes: &mut Vec<u8>, numbers: &[u64], room: usize) {
    assert!(numbers.len() <= room, "no room for {numbers:?}");
    let end = bytes.len() + 8 * room;
    for number in numbers {
        bytes.extend(number.to_le_bytes());
    }
    bytes.resize(end, 0);
}
