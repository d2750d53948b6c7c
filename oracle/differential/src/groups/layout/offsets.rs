//! Offset lists that are not the running totals.

/// Each element one more and one less, each two neighbours swapped, elements
/// missing and added at either end, all shifted by one, and all zero.
pub fn damaged(right: &[u64]) -> Vec<Vec<u64>> {
    let mut all = vec![vec![], vec![0], vec![0; right.len()]];
    for place in 0..right.len() {
        for step in [1, u64::MAX, 1 << 32, 1 << 63] {
            let mut list = right.to_vec();
            list[place] = list[place].wrapping_add(step);
            all.push(list);
        }
        if place > 0 {
            let mut list = right.to_vec();
            list.swap(place - 1, place);
            all.push(list);
        }
        let mut list = right.to_vec();
        list.remove(place);
        all.push(list);
    }
    let last = right.last().copied().unwrap_or_default();
    for more in [0, last, last + 1] {
        all.push([right, &[more]].concat());
    }
    all.push([&[0], right].concat());
    all.push(right.iter().map(|offset| offset + 1).collect());
    all
}
