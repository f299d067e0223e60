//! The time of one call: the best of many batches.

use std::time::{Duration, Instant};

/// Makes a call so many times.
pub type Calls = Box<dyn FnMut(u32)>;

/// A call that is made over and over.
pub fn calls(mut call: impl FnMut() + 'static) -> Calls {
    Box::new(move |times| (0..times).for_each(|_| call()))
}

/// How long one batch takes about, and how many batches there are.
#[derive(Copy, Clone)]
pub struct Effort {
    pub batch: Duration,
    pub batches: u32,
}

/// How many calls make a batch.
fn times(calls: &mut Calls, effort: Effort) -> u32 {
    let mut times = 1;
    loop {
        let start = Instant::now();
        calls(times);
        if start.elapsed() >= effort.batch || times >= 1 << 24 {
            return times;
        }
        times *= 2;
    }
}

/// Nanoseconds for each of several calls, which take turns, so that whatever else the machine does
/// falls on all of them.
pub fn best<const N: usize>(mut all: [Option<Calls>; N], effort: Effort) -> [Option<f64>; N] {
    let times = all
        .each_mut()
        .map(|calls| calls.as_mut().map_or(0, |c| times(c, effort)));
    let mut best = [None; N];
    for _ in 0..effort.batches {
        for (i, calls) in all.iter_mut().enumerate() {
            let Some(calls) = calls else { continue };
            let start = Instant::now();
            calls(times[i]);
            let each = start.elapsed().as_nanos() as f64 / f64::from(times[i]);
            best[i] = Some(best[i].map_or(each, |b: f64| b.min(each)));
        }
    }
    best
}
