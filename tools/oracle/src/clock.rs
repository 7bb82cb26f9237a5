//! Time that a thread or the programs it ran had a processor for, so that other work on the machine counts for less.

use std::time::Duration;

#[repr(C)]
struct Timespec {
    seconds: i64,
    nanoseconds: i64,
}

/// Linux's rusage: the times in the user's code and in the system's, in seconds and microseconds, then other counts.
#[repr(C)]
struct Usage {
    user: [i64; 2],
    system: [i64; 2],
    others: [i64; 14],
}

const CLOCK_THREAD_CPUTIME_ID: i32 = 3;
const RUSAGE_CHILDREN: i32 = -1;

unsafe extern "C" {
    fn clock_gettime(clock: i32, time: *mut Timespec) -> i32;
    fn getrusage(who: i32, usage: *mut Usage) -> i32;
}

/// The time that all programs had which this one started and waited for.
pub fn of_children() -> Duration {
    let mut usage = Usage { user: [0; 2], system: [0; 2], others: [0; 14] };
    // The pointer is to a struct of the layout that Linux writes on a 64-bit machine.
    let status = unsafe { getrusage(RUSAGE_CHILDREN, &mut usage) };
    assert_eq!(status, 0, "the usage is read");
    let time = |[seconds, micros]: [i64; 2]| Duration::new(seconds as u64, micros as u32 * 1000);
    time(usage.user) + time(usage.system)
}

fn now() -> Duration {
    let mut time = Timespec { seconds: 0, nanoseconds: 0 };
    // The pointer is to a struct of the layout that Linux writes on a 64-bit machine.
    let status = unsafe { clock_gettime(CLOCK_THREAD_CPUTIME_ID, &mut time) };
    assert_eq!(status, 0, "the thread's clock is read");
    Duration::new(time.seconds as u64, time.nanoseconds as u32)
}

/// The time of `runs` runs.
fn time(run: &mut dyn FnMut(), runs: u32) -> Duration {
    let start = now();
    (0..runs).for_each(|_| run());
    now() - start
}

/// A measurement lasts at least this long; those of two things together at most that long, where the fewest do.
const SHORTEST: Duration = Duration::from_micros(400);
const LONGEST: Duration = Duration::from_millis(600);
const FEWEST: usize = 3;
const MOST: usize = 40;
/// After this long a single measurement is enough.
const TOO_LONG: Duration = Duration::from_secs(5);

/// Two things measured by turns.
pub struct Turns {
    /// The best nanoseconds of one run of each.
    pub best: [f64; 2],
    /// The second's time over the first's: the median of the turns, of which each has both side by side. A processor
    /// that runs faster for some turns changes the best times, and not this.
    pub ratio: f64,
}

/// Measures two things by turns.
pub fn by_turns(first: &mut dyn FnMut(), second: &mut dyn FnMut()) -> Turns {
    let (first_runs, second_runs) = (enough(first), enough(second));
    let each = |time: Duration, runs: u32| time.as_nanos() as f64 / runs as f64;
    let mut spent = Duration::ZERO;
    let mut best = [f64::INFINITY; 2];
    let mut ratios: Vec<f64> = Vec::new();
    while ratios.len() < MOST && spent < TOO_LONG && (ratios.len() < FEWEST || spent < LONGEST) {
        let times = [time(first, first_runs), time(second, second_runs)];
        spent += times[0] + times[1];
        let turn = [each(times[0], first_runs), each(times[1], second_runs)];
        best = [best[0].min(turn[0]), best[1].min(turn[1])];
        ratios.push(turn[1] / turn[0]);
    }
    ratios.sort_by(f64::total_cmp);
    Turns { best, ratio: ratios[ratios.len() / 2] }
}

/// How many runs make a measurement.
fn enough(run: &mut dyn FnMut()) -> u32 {
    let mut runs = 1;
    while time(run, runs) < SHORTEST {
        runs *= 2;
    }
    runs
}
