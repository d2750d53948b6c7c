//! The examples of document 01.

use super::{Blocks, Call, Layout, Question};
use crate::answer::Answer;
use crate::expected::SIDE_LIMIT;

pub fn examples() -> Vec<(Call, Answer)> {
    [of_table(), others()].concat()
}

fn of_table() -> Vec<(Call, Answer)> {
    let size = Question::ValidateSquareMatrixSize { nrows: 3, ncols: 3 };
    let field_mask = Question::FieldMask {
        field_id: 0,
        out: vec![0],
    };
    vec![
        (Call::KindOf(7), Answer::refused(17)),
        (Call::KindOf(255), Answer::told(255)),
        (new(&[], 1), Answer::refused(14)),
        (new(&[2, 0], 3), Answer::refused(15)),
        (same_block_twice(), Answer::refused(16)),
        (kind_7(), Answer::refused(17)),
        (
            asked(&[1, 1, 1, 1], &[0, 1, 2, 3, 4], size),
            Answer::refused(18),
        ),
        (asked(&[65], &[0, 65], field_mask), Answer::refused(25)),
        (asked(&[1], &[1, 1], Question::Check), Answer::refused(26)),
        (of_2_and_1(Question::BlockRange(2)), Answer::none()),
        (of_2_and_1(Question::Locate(3)), Answer::none()),
    ]
}

/// Not in 01's table: a block of as many nodes as a mask may have and of one
/// more, the offsets of blocks of 2 and 1, and where their nodes stand.
fn others() -> Vec<(Call, Answer)> {
    let limit = SIDE_LIMIT as u32;
    vec![
        (new(&[limit + 1], 2), Answer::refused(1)),
        (new(&[limit], 2), Answer::told(u64::from(limit))),
        (new(&[2, 1], 3), Answer::told(3)),
        (
            of_2_and_1(Question::BlockRange(1)),
            Answer::told_all(&[2, 3]),
        ),
        (of_2_and_1(Question::Locate(1)), Answer::told_all(&[0, 1])),
        (of_2_and_1(Question::Locate(2)), Answer::told_all(&[1, 0])),
    ]
}

fn of_2_and_1(question: Question) -> Call {
    asked(&[2, 1], &[0, 2, 3], question)
}

/// Blocks as the job program makes them: kind 1, id by position, field 0.
fn blocks(components: &[u32]) -> Blocks {
    Blocks {
        kinds: vec![1; components.len()],
        ids: (0..components.len() as u64).collect(),
        fields: vec![0; components.len()],
        components: components.to_vec(),
    }
}

fn new(components: &[u32], room: usize) -> Call {
    Call::New {
        blocks: blocks(components),
        out: vec![77; room],
    }
}

fn same_block_twice() -> Call {
    let mut blocks = blocks(&[1, 1]);
    blocks.ids = vec![0, 0];
    let out = vec![77; 3];
    Call::New { blocks, out }
}

fn kind_7() -> Call {
    let mut blocks = blocks(&[1]);
    blocks.kinds = vec![7];
    let out = vec![77; 2];
    Call::New { blocks, out }
}

fn asked(components: &[u32], offsets: &[u64], question: Question) -> Call {
    let layout = Layout {
        blocks: blocks(components),
        offsets: offsets.to_vec(),
    };
    Call::Asked(layout, question)
}
