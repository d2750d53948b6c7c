//! What the cases share.

use super::Call;
use super::expected::text;
use super::reading::Job;
use crate::groups::growth::cut;
use crate::groups::local::of_entries;
use crate::groups::topology::Pair;

/// What an answer's list holds before.
const FILLING: u8 = b'#';

/// With a list of just the needed length.
pub fn exact(input: &[u8]) -> Call {
    with_room(input, text(input).len())
}

/// With the needed length, one byte less, none, one and some more.
pub fn in_rooms(input: &[u8], run: &mut dyn FnMut(Call)) {
    let needed = text(input).len();
    for room in [needed, needed - 1, 0, needed + 1, needed + 40] {
        run(with_room(input, room));
    }
}

pub fn with_room(input: &[u8], room: usize) -> Call {
    Call {
        input: input.to_vec(),
        out: vec![FILLING; room],
    }
}

impl Job {
    /// The lines of a right text.
    pub fn lines(&self) -> Vec<String> {
        vec![
            format!("size={}\n", self.size),
            format!("blocks={}\n", joined(&self.blocks)),
            format!("ptr={}\n", joined(&self.ptr)),
            format!("cols={}\n", joined(&self.cols)),
            format!("seeds={}\n", joined(&self.seeds)),
            format!("hops={}\n", self.hops),
        ]
    }

    pub fn text(&self) -> Vec<u8> {
        self.lines().concat().into_bytes()
    }

    /// Blocks, pointers or columns.
    pub fn list(&mut self, list: usize) -> &mut Vec<u32> {
        match list {
            0 => &mut self.blocks,
            1 => &mut self.ptr,
            _ => &mut self.cols,
        }
    }

    /// The same with a text of so many bytes: numbers of the list get the most
    /// digits, from the last on, then it gets more of them; the hops get as many
    /// digits as are missing then.
    pub fn of_length(&self, list: usize, bytes: usize) -> Vec<u8> {
        let mut job = self.clone();
        job.hops = 1;
        let mut place = job.list(list).len();
        while job.text().len() + 19 < bytes {
            if place > 0 {
                place -= 1;
                job.list(list)[place] = u32::MAX;
            } else {
                job.list(list).push(u32::MAX);
            }
        }
        let missing = bytes - job.text().len();
        job.hops = 10_u64.pow(missing as u32);
        job.text()
    }
}

fn joined<T: ToString>(list: &[T]) -> String {
    let shown: Vec<String> = list.iter().map(|number| number.to_string()).collect();
    shown.join(",")
}

/// 01's example.
pub fn example() -> Job {
    of_pairs(3, 1, &[(0, 1), (1, 2)], &[0], 1)
}

/// A right job: entries in any order, blocks of one size, the last one smaller.
pub fn of_pairs(size: usize, block: usize, pairs: &[Pair], seeds: &[u64], hops: u64) -> Job {
    let matrix = of_entries(size, pairs);
    Job {
        size: size as u64,
        blocks: cut(size, || block),
        ptr: matrix.row_ptr,
        cols: matrix.col_idx,
        seeds: seeds.to_vec(),
        hops,
    }
}
