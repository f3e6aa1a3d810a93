//! Medians of many repetitions, in the processor time of this thread: what else the machine does plays little part.

use std::{
    hint::black_box,
    time::{Duration, Instant},
};

#[repr(C)]
struct Timespec {
    seconds: i64,
    nanoseconds: i64,
}

unsafe extern "C" {
    fn clock_gettime(clock: i32, time: *mut Timespec) -> i32;
}

const CLOCK_THREAD_CPUTIME_ID: i32 = 3;

/// Processor time of this thread, in nanoseconds.
fn now() -> i64 {
    let mut time = Timespec { seconds: 0, nanoseconds: 0 };
    // Safety: the pointer is to a timespec as Linux lays it out on a machine of 64 bits.
    unsafe { clock_gettime(CLOCK_THREAD_CPUTIME_ID, &mut time) };
    time.seconds * 1_000_000_000 + time.nanoseconds
}

/// The time of one repetition.
#[derive(Default)]
pub struct Clock {
    took: i64,
}

impl Clock {
    /// Times some work. What it gives is handed on, so that it is freed after the clock has stopped.
    pub fn time<T>(&mut self, work: impl FnOnce() -> T) -> T {
        let start = now();
        let done = black_box(work());
        self.took = now() - start;
        done
    }
}

/// How long each contestant is timed: in so many turns, each so long.
#[derive(Clone, Copy)]
pub struct Effort {
    turns: usize,
    turn: Duration,
}

pub const FULL: Effort = Effort { turns: 8, turn: Duration::from_millis(60) };
pub const QUICK: Effort = Effort { turns: 2, turn: Duration::from_millis(5) };

/// Repetitions of a turn that are not counted, and the least that are.
const IDLE: usize = 2;
const LEAST: usize = 5;

/// One repetition of what is timed.
pub type Contestant<'a> = Box<dyn FnMut(&mut Clock) + 'a>;

fn turn(contestant: &mut Contestant<'_>, length: Duration, times: &mut Vec<f64>) {
    let mut clock = Clock::default();
    (0..IDLE).for_each(|_| contestant(&mut clock));
    let (begun, counted) = (Instant::now(), times.len());
    while times.len() < counted + LEAST || begun.elapsed() < length {
        contestant(&mut clock);
        times.push(clock.took as f64);
    }
}

fn median(mut times: Vec<f64>) -> f64 {
    times.sort_by(f64::total_cmp);
    times[times.len() / 2]
}

/// The contestants' medians in nanoseconds, less what the clock itself takes. They take turns, so that a machine that changes its speed changes it for all.
pub fn medians<const N: usize>(contestants: [Contestant<'_>; N], effort: Effort) -> [f64; N] {
    let mut all = contestants.map(|it| (it, Vec::new()));
    let (mut nothing, mut clock_times): (Contestant<'_>, _) = (Box::new(|clock| clock.time(|| ())), Vec::new());
    for _ in 0..effort.turns {
        all.iter_mut().for_each(|(contestant, times)| turn(contestant, effort.turn, times));
        turn(&mut nothing, effort.turn / 10, &mut clock_times);
    }
    let clock = median(clock_times);
    all.map(|(_, times)| median(times) - clock)
}

pub fn shown(nanoseconds: f64) -> String {
    match nanoseconds {
        it if it < 1e3 => format!("{it:.0} ns"),
        it if it < 1e6 => format!("{:.1} us", it / 1e3),
        it => format!("{:.2} ms", it / 1e6),
    }
}
