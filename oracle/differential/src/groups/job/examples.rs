//! The examples of document 01.

use super::Call;
use super::cases::{exact, example};
use super::expected::text;
use super::reading::{Job, read};
use crate::answer::Answer;

const INPUT: &str = "size=3\nblocks=1,1,1\nptr=0,1,2,2\ncols=1,2\nseeds=0\nhops=1\n";

const OUTPUT: &str = "region=0,1\nfrontier=1\ncompleted=1\nlocal_ptr=0,1,1\nlocal_cols=1\n";

pub fn examples() -> Vec<(Call, Answer)> {
    demand_reading();
    let cases = [worked(), refused()].concat();
    cases
        .into_iter()
        .map(|(input, output)| {
            let found = String::from_utf8(text(input.as_bytes())).expect("plain text");
            assert_eq!(found, output, "{input:?}");
            let answer = Answer::told(output.len() as u64);
            (exact(input.as_bytes()), answer)
        })
        .collect()
}

/// 01's text is the one that is made of its numbers, and read as them.
fn demand_reading() {
    assert_eq!(example().text(), INPUT.as_bytes());
    assert_eq!(read(INPUT.as_bytes()), Ok(example()));
}

fn shown(job: &Job) -> String {
    job.lines().concat()
}

/// The whole example, and 01's growths of the same entries.
fn worked() -> Vec<(String, String)> {
    let job = example();
    let with = |seeds: &[u64], hops| {
        shown(&Job {
            seeds: seeds.to_vec(),
            hops,
            ..job.clone()
        })
    };
    let whole = |frontier: &str, completed: u64| {
        format!(
            "region=0,1,2\nfrontier={frontier}\ncompleted={completed}\nlocal_ptr=0,1,2,2\nlocal_cols=1,2\n"
        )
    };
    let by_blocks = Job {
        blocks: vec![2, 1],
        seeds: vec![1],
        ..job.clone()
    };
    vec![
        (INPUT.into(), OUTPUT.into()),
        (
            with(&[0], 0),
            "region=0\nfrontier=0\ncompleted=0\nlocal_ptr=0,0\nlocal_cols=\n".into(),
        ),
        (with(&[0], 2), whole("2", 2)),
        (with(&[0], 3), whole("", 3)),
        (with(&[0], 9), whole("", 3)),
        (with(&[0], u64::MAX), whole("", 3)),
        (
            with(&[2], 1),
            "region=1,2\nfrontier=1\ncompleted=1\nlocal_ptr=0,1,1\nlocal_cols=1\n".into(),
        ),
        (
            with(&[], 9),
            "region=\nfrontier=\ncompleted=0\nlocal_ptr=0\nlocal_cols=\n".into(),
        ),
        (shown(&by_blocks), whole("2", 1)),
    ]
}

/// The table's, as far as a job can get them: `size=03` for 27.
fn refused() -> Vec<(String, String)> {
    let job = |size: u64, blocks: &[u32], ptr: &[u32], cols: &[u32], seeds: &[u64]| Job {
        size,
        blocks: blocks.to_vec(),
        ptr: ptr.to_vec(),
        cols: cols.to_vec(),
        seeds: seeds.to_vec(),
        hops: 1,
    };
    let cases = [
        (job(257, &[257], &[0], &[], &[]), 1),
        (job(2, &[2], &[0, 1], &[0], &[]), 2),
        (job(1, &[1], &[1, 1], &[0], &[]), 4),
        (job(1, &[1], &[0, 2], &[0], &[]), 5),
        (job(2, &[2], &[0, 2, 1], &[0], &[]), 6),
        (job(3, &[3], &[0, 1, 1, 1], &[3], &[]), 7),
        (job(3, &[3], &[0, 0, 0, 0], &[], &[3]), 13),
        (job(1, &[], &[0, 0], &[], &[]), 14),
        (job(2, &[2, 0], &[0, 0, 0], &[], &[]), 15),
        (job(3, &[4], &[0, 0, 0, 0], &[], &[]), 18),
        (job(3, &[1_048_577], &[0, 0, 0, 0], &[], &[]), 1),
    ];
    let mut all: Vec<(String, String)> = cases
        .iter()
        .map(|(job, number)| (shown(job), format!("refused={number}\n")))
        .collect();
    all.push((INPUT.replace("size=3", "size=03"), "refused=27\n".into()));
    all.push((String::new(), "refused=27\n".into()));
    all
}
