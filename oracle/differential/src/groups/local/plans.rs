//! Gathers by plans with a fault: 26 in each of its ways, and what comes before
//! and after it.

use super::cases::{gathering, spread};
use super::{Call, Gather};
use crate::groups::csr32::NOT_FINITE;

pub fn run(run: &mut dyn FnMut(Call)) {
    for right in right_ones() {
        run(Call::Gather(right.clone()));
        for pointers in damaged_pointers(&right.source_ptr) {
            run(Call::Gather(Gather {
                source_ptr: pointers,
                ..right.clone()
            }));
        }
        damaged_sources(&right, run);
        value_counts(&right, run);
    }
    orders(run);
}

/// Direct, summed, with pairs of no source, of no pairs.
pub fn right_ones() -> Vec<Gather> {
    let values: Vec<f64> = (0..9).map(spread).collect();
    vec![
        gathering(&[0, 1, 2, 3], &[0, 1, 2], &values),
        gathering(&[0, 2, 3], &[4, 8, 0], &values),
        gathering(&[0, 0, 3, 3, 4], &[1, 1, 2, 8], &values),
        gathering(&[0, 1], &[0], &values[..1]),
        gathering(&[0, 3], &[2, 1, 0], &values[..3]),
        gathering(&[0], &[], &values),
        gathering(&[0], &[], &[]),
        gathering(&[0, 0], &[], &[]),
    ]
}

/// Each pointer another number, two neighbours exchanged, one missing or more,
/// all of them shifted; some of the changes make another right plan.
pub fn damaged_pointers(right: &[u32]) -> Vec<Vec<u32>> {
    let last = right[right.len() - 1];
    let mut all = vec![vec![], vec![0; right.len()], vec![last; right.len()]];
    for place in 0..right.len() {
        let old = right[place];
        for new in [
            0,
            1,
            old.wrapping_sub(1),
            old + 1,
            last,
            last + 1,
            1 << 16,
            1 << 24,
            1 << 31,
            u32::MAX,
        ] {
            let mut list = right.to_vec();
            list[place] = new;
            all.push(list);
        }
        let mut list = right.to_vec();
        list.remove(place);
        all.push(list);
        for more in [0, old, last, last + 1, u32::MAX] {
            let mut list = right.to_vec();
            list.insert(place, more);
            all.push(list);
        }
        if place > 0 {
            let mut list = right.to_vec();
            list.swap(place - 1, place);
            all.push(list);
        }
    }
    all.push([right, &[last]].concat());
    all.push([right, &[last + 1]].concat());
    all.push([right, &[last + 1, last]].concat());
    all.push(right.iter().map(|pointer| pointer + 1).collect());
    all
}

/// A source too few or too many, or one that is not below the value count, at
/// each place.
fn damaged_sources(right: &Gather, run: &mut dyn FnMut(Call)) {
    let mut with = |source_indices: Vec<u32>| {
        run(Call::Gather(Gather {
            source_indices,
            ..right.clone()
        }));
    };
    let sources = &right.source_indices;
    with([sources.as_slice(), &[0]].concat());
    with([&[0], sources.as_slice()].concat());
    let count = right.source_value_len as u32;
    for place in 0..sources.len() {
        for source in [
            count.wrapping_sub(1),
            count,
            count + 1,
            count + (1 << 16),
            1 << 31,
            u32::MAX,
        ] {
            let mut list = sources.clone();
            list[place] = source;
            with(list);
        }
        let mut list = sources.clone();
        list.remove(place);
        with(list);
    }
    with(vec![]);
}

/// The plan's value count or the list of values longer or shorter: 26 where a
/// source is not below the count, 11 where the two differ.
fn value_counts(right: &Gather, run: &mut dyn FnMut(Call)) {
    let count = right.source_value_len;
    for source_value_len in [
        0,
        1,
        2,
        count.wrapping_sub(1),
        count,
        count + 1,
        1 << 24,
        (1 << 24) + 1,
        count + (1 << 32),
        usize::MAX,
    ] {
        for length in [count, count.saturating_sub(1), count + 1, 0, 12] {
            for first in [0.5, f64::from_bits(NOT_FINITE[4])] {
                let mut values: Vec<f64> = (0..length).map(spread).collect();
                if length > 0 {
                    values[0] = first;
                }
                run(Call::Gather(Gather {
                    source_value_len,
                    values,
                    ..right.clone()
                }));
            }
        }
    }
}

/// Every choice of faults: pointers that start late, fall, or end early, a
/// source past the values, values too many or too few, one not finite, a short
/// list.
fn orders(run: &mut dyn FnMut(Call)) {
    for chosen in 0..1_u32 << 8 {
        let has = |fault: u32| chosen >> fault & 1 == 1;
        let mut call = gathering(&[0, 2, 3, 4], &[0, 1, 2, 3], &[0.1; 5]);
        if has(0) {
            call.source_ptr[0] = 1;
        }
        if has(1) {
            call.source_ptr.swap(1, 2);
        }
        if has(2) {
            call.source_indices.push(0);
        }
        if has(3) {
            call.source_indices[1] = 5;
        }
        if has(4) {
            call.values.push(0.2);
        }
        if has(5) {
            call.values.remove(0);
            call.values.pop();
        }
        if has(6) {
            call.values[0] = f64::NAN;
        }
        if has(7) {
            call.out.pop();
        }
        run(Call::Gather(call.clone()));
        call.source_ptr.clear();
        run(Call::Gather(call));
    }
}
