//! Random cases.

use super::cases::{of_pairs, with_room};
use super::reading::Job;
use super::{Call, edges, expected};
use crate::groups::growth::{FAR, any_way, cut, one_way};
use crate::rng::Rng;

/// One job at random; half of them are right.
pub fn random(rng: &mut Rng) -> Call {
    let input = random_text(rng);
    let needed = expected::text(&input).len();
    let room = match rng.below(12) {
        0 => needed - 1,
        1 => rng.below(needed),
        2 | 3 => needed + 1 + rng.below(9),
        _ => needed,
    };
    let mut call = with_room(&input, room);
    call.out
        .iter_mut()
        .for_each(|byte| *byte = rng.next() as u8);
    call
}

pub fn random_text(rng: &mut Rng) -> Vec<u8> {
    if rng.once_in(500) {
        return edges::large(rng, 1).remove(0);
    }
    let mut job = right(rng);
    if rng.once_in(4) {
        spoil(rng, &mut job);
    }
    let mut text = job.text();
    if rng.once_in(4) {
        for _ in 0..1 + rng.below(2) {
            edit(rng, &mut text);
        }
    }
    text
}

fn right(rng: &mut Rng) -> Job {
    let size = match rng.below(20) {
        0 => 1 + rng.below(100),
        1 | 2 => 60 + rng.below(10),
        _ => 1 + rng.below(12),
    };
    let count = rng.below(2 * size + 1);
    let mut pairs = match rng.below(3) {
        0 => any_way(rng, size, count),
        _ => one_way(rng, size, size),
    };
    rng.shuffle(&mut pairs);
    let seeds: Vec<u64> = (0..rng.below(4)).map(|_| rng.below(size) as u64).collect();
    let hops = match rng.below(10) {
        0 => rng.pick(&FAR),
        _ => rng.below(5) as u64,
    };
    let most = rng.pick(&[1, 2, 3, 70]);
    Job {
        blocks: cut(size, || 1 + rng.below(most)),
        ..of_pairs(size, 1, &pairs, &seeds, hops)
    }
}

/// One of the numbers another, or one number fewer or more.
fn spoil(rng: &mut Rng, job: &mut Job) {
    let wide = rng.pick(&[0, 1, 2, job.size, job.size + 1, 257, 1 << 32, u64::MAX]);
    let narrow = rng.pick(&[0, 1, 2, job.size as u32, 1_048_577, u32::MAX]);
    match rng.below(6) {
        0 => job.size = wide,
        1 => job.seeds.push(wide),
        list => {
            let numbers = match list {
                2 => &mut job.blocks,
                3 => &mut job.cols,
                _ => &mut job.ptr,
            };
            let place = rng.below(numbers.len() + 1);
            match rng.below(4) {
                0 => numbers.insert(place, narrow),
                1 if place < numbers.len() => drop(numbers.remove(place)),
                _ if place < numbers.len() => numbers[place] = narrow,
                _ => numbers.clear(),
            }
        }
    }
}

/// One byte another, gone or more, mostly a byte that a text may hold.
fn edit(rng: &mut Rng, text: &mut Vec<u8>) {
    let byte = match rng.below(8) {
        0 => rng.next() as u8,
        1 => rng.pick(b"\r\0 +-\t"),
        _ => rng.pick(b"0123456789,=\n"),
    };
    let place = rng.below(text.len().max(1));
    match rng.below(4) {
        0 => text.insert(place, byte),
        1 if !text.is_empty() => drop(text.remove(place)),
        2 if !text.is_empty() => text.truncate(place),
        _ if !text.is_empty() => text[place] = byte,
        _ => text.push(byte),
    }
}
