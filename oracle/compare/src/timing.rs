//! Times of two sides of one work, taken in turns in one process.

use std::time::{Duration, Instant};

/// A run of so many times.
pub type Run = Box<dyn FnMut(usize)>;

/// One side's work on a board. Where each run makes the board first, `less` makes it too and has
/// that much less of the work, so that the difference of the two is the work alone.
pub struct Side {
    pub run: Run,
    pub less: Option<Run>,
}

pub fn times_of(mut work: impl FnMut() + 'static) -> Run {
    Box::new(move |times| (0..times).for_each(|_| work()))
}

/// A side that makes no board.
pub fn plain(work: impl FnMut() + 'static) -> Side {
    Side {
        run: times_of(work),
        less: None,
    }
}

/// Batches of each side, fewer where one takes long; the sides take turns.
pub const BATCHES: usize = 25;
pub const FEWEST: usize = 7;
/// The least length of a batch's work, in seconds; a run of this length is long enough.
const LEAST: f64 = 0.004;
const LONG: f64 = 0.1;
/// The length of all batches of a board that is aimed at, in seconds.
const WHOLE: f64 = 1.0;

#[repr(C)]
struct Time {
    seconds: i64,
    nanoseconds: i64,
}

extern "C" {
    fn clock_gettime(clock: i32, time: *mut Time) -> i32;
}

/// The processor time of this thread: other programs on the machine do not count.
fn processor_time() -> Duration {
    const THREAD: i32 = 3;
    let mut time = Time {
        seconds: 0,
        nanoseconds: 0,
    };
    // SAFETY: the address is that of a Time as Linux lays it out on 64 bits.
    let failed = unsafe { clock_gettime(THREAD, &mut time) };
    assert_eq!(failed, 0, "no clock of this thread");
    Duration::new(time.seconds as u64, time.nanoseconds as u32)
}

/// Seconds of a run of so many times.
fn seconds(run: &mut Run, times: usize) -> f64 {
    let start = processor_time();
    run(times);
    (processor_time() - start).as_secs_f64()
}

/// Takes seconds of a side's run and of its run with less work, where they are fewer than found.
fn take(side: &mut Side, times: usize, found: &mut [f64; 2]) {
    let less = side.less.as_mut().map_or(0.0, |less| seconds(less, times));
    found[0] = found[0].min(seconds(&mut side.run, times));
    found[1] = found[1].min(less);
}

/// How many times make a batch's work long enough, and at least half as long as what is taken off.
fn enough(side: &mut Side) -> usize {
    let mut times = 1;
    loop {
        let mut found = [f64::INFINITY; 2];
        for _ in 0..3 {
            take(side, times, &mut found);
        }
        let work = found[0] - found[1];
        if work >= LEAST && (work >= found[1] / 2.0 || found[0] >= LONG) {
            return times;
        }
        times *= 2;
    }
}

/// Each side's time for one time of its work, in seconds: the least of its whole runs, less the
/// least of its runs with less work.
pub fn least(mut sides: [Side; 2]) -> [f64; 2] {
    let times = [enough(&mut sides[0]), enough(&mut sides[1])];
    let mut found = [[f64::INFINITY; 2]; 2];
    let start = Instant::now();
    for round in 0..BATCHES {
        if round >= FEWEST && start.elapsed().as_secs_f64() > WHOLE {
            break;
        }
        for side in 0..2 {
            take(&mut sides[side], times[side], &mut found[side]);
        }
    }
    [0, 1].map(|side| (found[side][0] - found[side][1]) / times[side] as f64)
}
