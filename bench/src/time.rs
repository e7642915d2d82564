//! Times of calls, taken in turn and repeated.

use std::fmt;
use std::time::Duration;

/// C's `timespec`.
#[repr(C)]
struct Timespec {
    seconds: i64,
    nanoseconds: i64,
}

// Of the C library.
extern "C" {
    fn clock_gettime(clock: i32, time: *mut Timespec) -> i32;
}

/// The processor's time of this thread, which does not grow while other programs run.
fn spent() -> Duration {
    const THREAD_CPUTIME: i32 = 3;
    let mut time = Timespec { seconds: 0, nanoseconds: 0 };
    // SAFETY: `time` has the layout of C's `timespec` and lives through the call.
    assert_eq!(unsafe { clock_gettime(THREAD_CPUTIME, &mut time) }, 0, "no clock of the thread");
    Duration::from_secs(time.seconds as u64) + Duration::from_nanos(time.nanoseconds as u64)
}

/// How calls are timed.
#[derive(Debug, Clone, Copy)]
pub struct Plan {
    /// How often every call has a turn.
    pub repeats: usize,
    /// What a turn takes at least.
    pub turn: Duration,
}

/// The calls of the port and of the Rust.
pub const AGAINST_RUST: Plan = Plan { repeats: 21, turn: Duration::from_millis(4) };

/// A call that is timed.
pub struct Call<'a>(Box<dyn FnMut() + 'a>);

/// A call that is timed.
pub fn call<'a>(run: impl FnMut() + 'a) -> Call<'a> {
    Call(Box::new(run))
}

/// The least, the median and the greatest of the repeats, in nanoseconds.
#[derive(Debug, Clone, Copy)]
pub struct Times {
    pub least: f64,
    pub median: f64,
    pub greatest: f64,
    /// How far the halves of the repeats, the earlier and the later, are apart: the least and the
    /// median of the slower half by those of the faster.
    pub halves: Halves,
}

/// Ratios of the two halves of the repeats, from 1 on.
#[derive(Debug, Clone, Copy)]
pub struct Halves {
    pub least: f64,
    pub median: f64,
}

impl Times {
    /// Of the times in the order in which they were taken, two or more.
    pub fn of(taken: &[f64]) -> Self {
        let [least, median, greatest] = spread(taken);
        let (earlier, later) = taken.split_at(taken.len() / 2);
        let [earlier, later] = [earlier, later].map(spread);
        let apart = |at: usize| {
            let ratio: f64 = earlier[at] / later[at];
            ratio.max(1.0 / ratio)
        };
        Self { least, median, greatest, halves: Halves { least: apart(0), median: apart(1) } }
    }

    /// The times of one of so many calls that were timed together.
    pub fn each_of(self, count: usize) -> Self {
        let [least, median, greatest] =
            [self.least, self.median, self.greatest].map(|time| time / count as f64);
        Self { least, median, greatest, ..self }
    }
}

impl fmt::Display for Times {
    fn fmt(&self, f: &mut fmt::Formatter<'_>) -> fmt::Result {
        let [least, median, greatest] =
            [self.least, self.median, self.greatest].map(|nano| nano / 1_000.0);
        write!(f, "{median:11.2} {least:11.2} {greatest:11.2}")
    }
}

/// The least, the median and the greatest of some numbers.
fn spread(taken: &[f64]) -> [f64; 3] {
    let mut taken = taken.to_vec();
    taken.sort_by(f64::total_cmp);
    [taken[0], taken[taken.len() / 2], taken[taken.len() - 1]]
}

/// The time of a turn of so many runs.
fn turn(Call(run): &mut Call<'_>, runs: u32) -> Duration {
    let start = spent();
    for _ in 0..runs {
        run();
    }
    spent() - start
}

/// The runs that a turn needs to take that long.
fn runs(call: &mut Call<'_>, least: Duration) -> u32 {
    let mut runs = 1;
    while turn(call, runs) < least {
        runs *= 2;
    }
    runs
}

/// The times of all calls in nanoseconds, repeat by repeat. Each repeat has a turn of every call, and
/// begins with another call.
pub fn turns(calls: &mut [Call<'_>], plan: Plan) -> Vec<Vec<f64>> {
    let runs: Vec<_> = calls.iter_mut().map(|call| runs(call, plan.turn)).collect();
    let mut taken = vec![Vec::new(); calls.len()];
    for repeat in 0..plan.repeats {
        for at in 0..calls.len() {
            let at = (at + repeat) % calls.len();
            let nanos = turn(&mut calls[at], runs[at]).as_nanos();
            taken[at].push(nanos as f64 / f64::from(runs[at]));
        }
    }
    taken
}
