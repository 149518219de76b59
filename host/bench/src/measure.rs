//! How a call is measured.

use std::hint::black_box;
use std::time::{Duration, Instant};

use crate::cases::{Call, Case};
use crate::head::Head;

/// A pass makes the call to this many heads, one after the other; they fit into a first-level cache.
const BATCH: usize = 64;
/// Passes of a repetition; the heads are restored before each. The number is small so that most
/// repetitions are not interrupted.
const PASSES: u32 = 4;
const REPETITIONS: usize = 501;
/// Heads in a count of instructions; some of them get the call.
const COUNTED: usize = 4096;

/// Nanoseconds of a call to heads of two kinds, measured in turn.
pub fn times<A: Head, B: Head>(case: &Case) -> (f64, f64) {
    let (a, b) = (case.prepared::<A>(), case.prepared::<B>());
    let (a, b) = (0..REPETITIONS)
        .map(|_| (repetition(a, &case.call), repetition(b, &case.call)))
        .unzip();
    (median(a), median(b))
}

/// The median of at least one figure.
pub fn median(mut figures: Vec<f64>) -> f64 {
    figures.sort_by(f64::total_cmp);
    figures[figures.len() / 2]
}

/// Nanoseconds of a call; the same passes without it are subtracted.
fn repetition<H: Head>(prepared: H, call: &Call) -> f64 {
    let mut heads = [prepared; BATCH];
    let mut with = Duration::ZERO;
    let mut without = Duration::ZERO;
    for _ in 0..PASSES {
        heads.fill(black_box(prepared));
        with += spent(|| make(&mut heads, call));
        heads.fill(black_box(prepared));
        without += spent(|| pass(&mut heads, |_| ()));
    }
    let calls = f64::from(PASSES) * BATCH as f64;
    (with.as_nanos() as f64 - without.as_nanos() as f64) / calls
}

fn spent(work: impl FnOnce()) -> Duration {
    let start = Instant::now();
    work();
    start.elapsed()
}

/// Makes the call to `calls` heads and skips the others, so that one more call adds only the cost of
/// the call. Returns false if there are not so many heads.
pub fn count<H: Head>(case: &Case, calls: usize) -> bool {
    let mut heads = [case.prepared::<H>(); COUNTED];
    let split = heads.split_at_mut_checked(calls);
    split
        .map(|(with, without)| {
            make(with, &case.call);
            pass(without, |_| ());
        })
        .is_some()
}

/// Makes the call to each head.
fn make<H: Head>(heads: &mut [H], call: &Call) {
    match *black_box(call) {
        Call::Tick => pass(heads, H::tick),
        Call::Missing => pass(heads, H::missing),
        Call::Slot => pass(heads, H::slot),
        Call::Sample(raw) => pass(heads, |head| head.sample(raw)),
        Call::Receive(frame) => {
            let frame = frame.into();
            pass(heads, |head| head.receive(&frame))
        }
    }
}

fn pass<H, T>(heads: &mut [H], call: impl Fn(&mut H) -> T) {
    for head in heads {
        black_box(&call(black_box(head)));
    }
}
