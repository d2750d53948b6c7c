//! Gathers of special values: bits that are copied, sums that round.

use super::cases::{gather, gathering};
use super::{Call, Gather, rooms};
use crate::groups::csr32::{FINITE, NOT_FINITE, finite};
use crate::rng::Rng;

/// Values whose sums show where they start, in which order they run and how
/// they round; by their bits.
const SUMMED: [u64; 18] = [
    0x0000_0000_0000_0000, // 0.0
    0x8000_0000_0000_0000, // -0.0
    0x0000_0000_0000_0001, // the least subnormal
    0x8000_0000_0000_0001,
    0x000f_ffff_ffff_ffff, // the largest subnormal
    0x0010_0000_0000_0000, // the least normal
    0x8010_0000_0000_0000,
    0x3ca0_0000_0000_0000, // 2 to the power of -53: half of the last bit of 1.0
    0x3ca0_0000_0000_0001, // a little more
    0x3fb9_9999_9999_999a, // 0.1
    0x3ff0_0000_0000_0000, // 1.0
    0xbff0_0000_0000_0000,
    0x4340_0000_0000_0000, // 2 to the power of 53
    0x4340_0000_0000_0001,
    0x7c90_0000_0000_0000, // half of the last bit of the largest
    0x7fe0_0000_0000_0000, // 2 to the power of 1023
    0x7fef_ffff_ffff_ffff, // the largest
    0xffef_ffff_ffff_ffff,
];

pub fn run(run: &mut dyn FnMut(Call)) {
    sums(run);
    copies(run);
    shapes(run);
    sources(run);
    long_sums(&mut Rng::new(24), run);
    not_finite(run);
    lengths(run);
}

fn summed() -> Vec<f64> {
    SUMMED.map(f64::from_bits).to_vec()
}

/// Each two and each three of these values in one pair, beside a pair of one.
fn sums(run: &mut dyn FnMut(Call)) {
    let values = summed();
    let count = values.len() as u32;
    for a in 0..count {
        for b in 0..count {
            run(gather(&[0, 2], &[a, b], &values));
            run(gather(&[0, 2, 3], &[a, b, a], &values));
            run(gather(&[0, 1, 3, 4], &[b, a, b, a], &values));
            for c in 0..count {
                run(gather(&[0, 3], &[a, b, c], &values));
            }
        }
    }
}

/// Direct plans: every value, and every two of them.
fn copies(run: &mut dyn FnMut(Call)) {
    let mut values = FINITE.map(f64::from_bits).to_vec();
    values.extend(summed());
    let count = values.len() as u32;
    for a in 0..count {
        run(gather(&[0, 1], &[a], &values));
        for b in 0..count {
            run(gather(&[0, 1, 2], &[a, b], &values));
        }
    }
    let all: Vec<u32> = (0..count).collect();
    let pointers: Vec<u32> = (0..=count).collect();
    let back: Vec<u32> = all.iter().rev().copied().collect();
    for sources in [all, back] {
        run(gather(&pointers, &sources, &values));
    }
}

/// Every way to share up to 5 sources among up to 5 pairs, some without any: as
/// many sources as pairs make no direct plan.
fn shapes(run: &mut dyn FnMut(Call)) {
    let values = [-0.0, 0.1, -0.0, 1e16, -0.0, 0.7];
    for pairs in 0..=5_u32 {
        for number in 0..6_usize.pow(pairs) {
            let counts = (0..pairs).map(|pair| number / 6_usize.pow(pair) % 6);
            let mut pointers = vec![0];
            for count in counts {
                pointers.push(pointers[pointers.len() - 1] + count as u32);
            }
            let sources = pointers[pointers.len() - 1];
            if sources <= 6 {
                let rising: Vec<u32> = (0..sources).collect();
                let same = vec![2; sources as usize];
                run(gather(&pointers, &rising, &values));
                run(gather(&pointers, &same, &values));
            }
        }
    }
}

/// Sources in any order, one of them for several pairs, values without a source.
fn sources(run: &mut dyn FnMut(Call)) {
    let values: Vec<f64> = (0..200).map(super::cases::spread).collect();
    let mut rng = Rng::new(25);
    for pairs in [1, 2, 7, 64, 65, 200] {
        let pointers: Vec<u32> = (0..=pairs).collect();
        let twice: Vec<u32> = (0..=pairs).map(|pair| 2 * pair).collect();
        let mut late = pointers.clone();
        late[pairs as usize] += 1;
        let mut early = pointers.clone();
        early[1..].iter_mut().for_each(|pointer| *pointer += 1);
        for list in [pointers, twice, late, early] {
            let count = list[list.len() - 1];
            for _ in 0..5 {
                let sources: Vec<u32> = (0..count).map(|_| rng.below(200) as u32).collect();
                let right = gathering(&list, &sources, &values);
                for room in [right.pairs(), right.pairs() - 1, right.pairs() + 3, 0] {
                    run(Call::Gather(Gather {
                        out: rooms::values_lent(room),
                        ..right.clone()
                    }));
                }
            }
        }
    }
}

/// Many terms: equal ones, large and small by turns, of any exponent.
fn long_sums(rng: &mut Rng, run: &mut dyn FnMut(Call)) {
    for count in [10, 100, 1_000, 70_000] {
        let any: Vec<f64> = (0..count).map(|_| finite(rng)).collect();
        let close: Vec<f64> = (0..count).map(|_| rng.below(1_000) as f64 / 7.0).collect();
        let by_turns: Vec<f64> = (0..count)
            .map(|place| [1e16, 1.0, -1e16, 3.0][place % 4])
            .collect();
        for values in [vec![0.1; count], vec![-0.0; count], by_turns, close, any] {
            let rising: Vec<u32> = (0..count as u32).collect();
            let falling: Vec<u32> = rising.iter().rev().copied().collect();
            for sources in [rising, falling] {
                let whole = [0, count as u32];
                let halves = [0, count as u32 / 2, count as u32];
                run(gather(&whole, &sources, &values));
                run(gather(&halves, &sources, &values));
            }
        }
    }
}

/// One value that is not finite, at each place, with a source or without.
fn not_finite(run: &mut dyn FnMut(Call)) {
    for bits in NOT_FINITE {
        for place in 0..5 {
            let mut values = vec![1.0; 5];
            values[place] = f64::from_bits(bits);
            run(gather(&[0, 1, 2], &[1, 3], &values));
            run(gather(&[0, 2, 3], &[1, 3, 1], &values));
            run(gather(&[0], &[], &values));
        }
    }
}

/// No pairs, no values; lists that keep what they hold, which may be anything.
fn lengths(run: &mut dyn FnMut(Call)) {
    for values in [&[][..], &[-0.0], &[0.1, 0.2]] {
        for right in [
            gathering(&[0], &[], values),
            gathering(&[0, 0, 0], &[], values),
        ] {
            for bits in [0, 1 << 63, 0x7ff8_0000_0000_0000, 0xfff0_dead_beef_0001] {
                for room in [0, 1, 2, 3, 9] {
                    run(Call::Gather(Gather {
                        out: vec![f64::from_bits(bits); room],
                        ..right.clone()
                    }));
                }
            }
        }
    }
}
