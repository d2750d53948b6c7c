//! Taking the samples of a row: port and Rust in turn.

use std::hint::black_box;
use std::mem::needs_drop;
use std::sync::OnceLock;
use std::time::{Duration, Instant};

use hybit_port::Answer;

/// How long and how often a row is measured.
#[derive(Clone, Copy)]
pub struct Effort {
    /// A row is measured for about so long, in any case `few` times and at most
    /// `most` times.
    pub row: Duration,
    /// A row whose samples differ by more than `CALM` then, for up to so long.
    pub restless: Duration,
    pub few: usize,
    pub most: usize,
    /// A sample takes at least so long, so that the clock's steps do not count.
    pub sample: Duration,
}

pub const WHOLE: Effort = Effort {
    row: Duration::from_millis(300),
    restless: Duration::from_millis(1500),
    few: 3,
    most: 51,
    sample: Duration::from_millis(1),
};

/// The spread of samples that need no further ones.
const CALM: f64 = 0.1;

/// To see that every row works.
pub const SHORT: Effort = Effort {
    row: Duration::ZERO,
    restless: Duration::ZERO,
    few: 3,
    most: 3,
    sample: Duration::from_micros(100),
};

/// Takes one sample of at least the given time: the time of one call in
/// microseconds.
pub type Sample<'a> = Box<dyn FnMut(Duration) -> f64 + 'a>;

/// As many calls a sample as fill its time. Each gets its number, counted
/// through all samples, to choose another operand each time.
pub fn calls<'a, O>(work: impl FnMut(usize) -> O + 'a) -> Sample<'a> {
    calls_on(|number| number, work)
}

/// The same for calls that consume something, which is made while the clock
/// stands.
pub fn calls_on<'a, I, O>(
    mut prepare: impl FnMut(usize) -> I + 'a,
    mut work: impl FnMut(I) -> O + 'a,
) -> Sample<'a> {
    let mut number = 0;
    Box::new(move |at_least| {
        let mut time = Duration::ZERO;
        let mut calls = 1;
        let mut made = 0.0;
        while time < at_least || made == 0.0 {
            time += stretch(calls, &mut number, &mut prepare, &mut work);
            made += calls as f64;
            calls *= 2;
        }
        microseconds(time) / made
    })
}

/// The mean of calls after one that is not counted: each finds what the one
/// before it has left in the caches, as work that is made many times does.
pub fn calls_in_a_row<'a, O>(mut work: impl FnMut() -> O + 'a) -> Sample<'a> {
    const SAMPLES: u32 = 10;
    Box::new(move |at_least| {
        drop(black_box(work()));
        let mut time = Duration::ZERO;
        let mut made = 0.0;
        while time < SAMPLES * at_least {
            time += stretch(1, &mut 0, &mut |_| (), &mut |()| work());
            made += 1.0;
        }
        microseconds(time) / made
    })
}

/// The time of so many calls. The clock stands while what a call consumes is
/// made and what it returns is dropped; where there is nothing to drop it runs
/// through.
fn stretch<I, O>(
    calls: usize,
    number: &mut usize,
    prepare: &mut impl FnMut(usize) -> I,
    work: &mut impl FnMut(I) -> O,
) -> Duration {
    let stands = needs_drop::<I>() || needs_drop::<O>();
    let turns = if stands { calls } else { 1 };
    let mut time = Duration::ZERO;
    for _ in 0..turns {
        let first = black_box(prepare(*number));
        let start = Instant::now();
        let output = black_box(work(first));
        *number += 1;
        for _ in 1..calls / turns {
            black_box(work(black_box(prepare(*number))));
            *number += 1;
        }
        time += start.elapsed().saturating_sub(clock());
        drop(output);
    }
    time
}

/// What looking at the clock twice takes.
fn clock() -> Duration {
    static CLOCK: OnceLock<Duration> = OnceLock::new();
    *CLOCK.get_or_init(|| {
        let looks = (0..10_000).map(|_| Instant::now().elapsed());
        looks.min().unwrap_or_default()
    })
}

/// The time of one piece of work that a call does many times after it has done
/// something else once, the checks: 1 + N pieces and the rest less 1 piece and
/// the rest, divided by N. N grows until the pieces take at least half as long
/// as the rest, which would drown them otherwise.
pub fn without_rest<'a>(mut work: impl FnMut(u64) -> Answer + 'a) -> Sample<'a> {
    const MOST_PIECES: u64 = 1 << 20;
    let mut work = move |times| assert_eq!(work(times).number, 0, "refused");
    let mut pieces = 1;
    Box::new(move |at_least| {
        loop {
            let rest = timed(|| work(1));
            let gained = timed(|| work(1 + pieces)).saturating_sub(rest);
            let wanted = rest.max(at_least);
            if 2 * gained >= wanted || pieces >= MOST_PIECES {
                return microseconds(gained) / pieces as f64;
            }
            // In part the gain may be the rest's own difference from call to
            // call, so the next one is looked at again.
            let more = 1.25 * wanted.as_secs_f64() / gained.as_secs_f64();
            pieces *= more.clamp(2.0, 16.0).ceil() as u64;
        }
    })
}

fn timed<O>(work: impl FnOnce() -> O) -> Duration {
    let start = Instant::now();
    black_box(work());
    start.elapsed()
}

fn microseconds(time: Duration) -> f64 {
    time.as_secs_f64() * 1e6
}

/// What the samples of one side say.
#[derive(Clone, Copy)]
pub struct Times {
    /// In microseconds.
    pub median: f64,
    /// Half the distance between the quartiles, as a part of the median.
    pub spread: f64,
    pub samples: usize,
}

impl Times {
    fn of(times: &[f64]) -> Self {
        let mut times = times.to_vec();
        times.sort_by(f64::total_cmp);
        let last = times.len() - 1;
        let median = times[times.len() / 2];
        let between = times[last - last / 4] - times[last / 4];
        Self {
            median,
            spread: if median > 0.0 {
                between / 2.0 / median
            } else {
                0.0
            },
            samples: times.len(),
        }
    }
}

/// Samples both sides in turn.
pub fn in_turn(
    effort: Effort,
    mut port: Sample,
    mut rust: Option<Sample>,
) -> (Times, Option<Times>) {
    let (mut ours, mut theirs) = (vec![], vec![]);
    let start = Instant::now();
    while wants_more(effort, &ours, &theirs, start) {
        ours.push(port(effort.sample));
        theirs.extend(rust.as_mut().map(|rust| rust(effort.sample)));
    }
    (Times::of(&ours), rust.map(|_| Times::of(&theirs)))
}

fn wants_more(effort: Effort, ours: &[f64], theirs: &[f64], start: Instant) -> bool {
    let samples = ours.len();
    let restless = || [ours, theirs].iter().any(|times| differ(times));
    samples < effort.few
        || samples < effort.most
            && (start.elapsed() < effort.row || start.elapsed() < effort.restless && restless())
}

fn differ(times: &[f64]) -> bool {
    !times.is_empty() && Times::of(times).spread > CALM
}
