//! Processor time of this thread, which other work on the machine disturbs less than the time of day, and medians of it.

#[repr(C)]
struct Time {
    seconds: i64,
    nanoseconds: i64,
}

extern "C" {
    fn clock_gettime(clock: i32, time: *mut Time) -> i32;
}

const THREAD_CPUTIME: i32 = 3;
const RUNS: usize = 7;
const ROUNDS: usize = 15;
/// A run repeats the call until this many nanoseconds have gone.
const RUN: f64 = 4e6;

/// Nanoseconds.
fn now() -> f64 {
    let mut time = Time { seconds: 0, nanoseconds: 0 };
    assert_eq!(unsafe { clock_gettime(THREAD_CPUTIME, &mut time) }, 0);
    time.seconds as f64 * 1e9 + time.nanoseconds as f64
}

fn run(call: &mut impl FnMut(), repeats: usize) -> f64 {
    let start = now();
    for _ in 0..repeats {
        call();
    }
    (now() - start) / repeats as f64
}

/// How many calls fill a run.
fn repeats(one: f64) -> usize {
    (RUN / one.max(1.0)).clamp(1.0, 1e6) as usize
}

/// Nanoseconds a call of either, from the round whose ratio is the median. The two run in turn, so that both have the machine as it is then.
pub fn in_turn(mut ours: impl FnMut(), mut rust: impl FnMut()) -> (f64, f64) {
    let (a, b) = (repeats(run(&mut ours, 1)), repeats(run(&mut rust, 1)));
    let mut rounds: Vec<(f64, f64)> = (0..ROUNDS).map(|_| (run(&mut ours, a), run(&mut rust, b))).collect();
    rounds.sort_by(|x, y| (x.1 / x.0).total_cmp(&(y.1 / y.0)));
    rounds[ROUNDS / 2]
}

/// Nanoseconds a call: the median of several runs, of fewer where one takes long.
pub fn median(mut call: impl FnMut()) -> f64 {
    let one = run(&mut call, 1);
    if one > 1e9 {
        return one;
    }
    let repeats = repeats(one);
    let runs = if one > 1e8 { 3 } else { RUNS };
    let mut times: Vec<f64> = (0..runs).map(|_| run(&mut call, repeats)).collect();
    times.sort_by(f64::total_cmp);
    times[runs / 2]
}
