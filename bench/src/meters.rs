//! Three ways to measure a call of each side and of the limit beside them, or of ours alone.

use std::hint::black_box;
use std::time::Instant;

/// What a call of each side takes, and the limit where the row has one.
pub struct Costs {
    pub rust: f64,
    pub ours: f64,
    pub limit: Option<f64>,
}

pub trait Meter {
    fn measure(&mut self, rust: impl FnMut(), ours: impl FnMut(), limit: Option<impl FnMut()>) -> Costs;
    /// Where the Rust has no such call.
    fn alone(&mut self, ours: impl FnMut()) -> f64;
}

/// The sides and the limit take turns, a batch of calls each, so that whatever else the machine does meets all of them.
pub struct Clock;

pub const BATCHES: usize = 25;
/// The least time of a batch, in nanoseconds.
const BATCH: f64 = 1e6;

fn batch(calls: u32, call: &mut impl FnMut()) -> f64 {
    let start = Instant::now();
    for _ in 0..calls {
        call();
    }
    start.elapsed().as_nanos() as f64
}

/// As many calls as take the time of a batch.
fn calls_of_batch(call: &mut impl FnMut()) -> u32 {
    let mut calls = 1;
    while batch(calls, call) < BATCH {
        calls *= 2;
    }
    calls
}

/// A call, how many of it a batch has, and what one took in the fastest batch so far.
struct Timed<F> {
    call: F,
    calls: u32,
    best: f64,
}

impl<F: FnMut()> Timed<F> {
    fn new(mut call: F) -> Timed<F> {
        let calls = calls_of_batch(&mut call);
        Timed { call, calls, best: f64::MAX }
    }

    fn turn(&mut self) {
        self.best = self.best.min(batch(self.calls, &mut self.call) / f64::from(self.calls));
    }
}

impl Meter for Clock {
    fn measure(&mut self, rust: impl FnMut(), ours: impl FnMut(), limit: Option<impl FnMut()>) -> Costs {
        let (mut rust, mut ours, mut limit) = (Timed::new(rust), Timed::new(ours), limit.map(Timed::new));
        for _ in 0..BATCHES {
            rust.turn();
            ours.turn();
            limit.iter_mut().for_each(Timed::turn);
        }
        Costs { rust: rust.best, ours: ours.best, limit: limit.map(|limit| limit.best) }
    }

    fn alone(&mut self, ours: impl FnMut()) -> f64 {
        let mut ours = Timed::new(ours);
        (0..BATCHES).for_each(|_| ours.turn());
        ours.best
    }
}

/// The marks' numbers differ, or the compiler would make one function of them.
#[no_mangle]
#[inline(never)]
extern "C" fn count_mark_rust() {
    black_box(1);
}

#[no_mangle]
#[inline(never)]
extern "C" fn count_mark_ours() {
    black_box(2);
}

#[no_mangle]
#[inline(never)]
extern "C" fn count_mark_limit() {
    black_box(3);
}

#[no_mangle]
#[inline(never)]
extern "C" fn count_mark_end() {
    black_box(4);
}

/// Measures nothing: it makes the calls between marks, for an emulator that counts.
pub struct Marks;

/// Calls before those that count: the first one has the C library's functions looked up, and the allocator takes some to settle.
const BEFORE: usize = 8;
/// The allocator may still do a little more in one call than in the next.
pub const CALLS: usize = 4;

impl Meter for Marks {
    fn measure(&mut self, mut rust: impl FnMut(), mut ours: impl FnMut(), mut limit: Option<impl FnMut()>) -> Costs {
        (0..BEFORE).for_each(|_| rust());
        (0..BEFORE).for_each(|_| ours());
        count_mark_rust();
        (0..CALLS).for_each(|_| rust());
        count_mark_ours();
        (0..CALLS).for_each(|_| ours());
        if let Some(limit) = &mut limit {
            count_mark_limit();
            (0..CALLS).for_each(|_| limit());
        }
        count_mark_end();
        Costs { rust: 0.0, ours: 0.0, limit: limit.map(|_| 0.0) }
    }

    fn alone(&mut self, mut ours: impl FnMut()) -> f64 {
        (0..BEFORE).for_each(|_| ours());
        count_mark_ours();
        (0..CALLS).for_each(|_| ours());
        count_mark_end();
        0.0
    }
}

/// The instructions that were counted between the marks, in the order of the calls.
pub struct Counted {
    lines: std::vec::IntoIter<(String, f64)>,
}

impl Counted {
    pub fn read(file: &str) -> Counted {
        let text = std::fs::read_to_string(file).unwrap();
        let line = |line: &str| {
            let (mark, number) = line.split_once(' ').unwrap();
            (mark.to_string(), number.parse().unwrap())
        };
        let lines: Vec<(String, f64)> = text.lines().map(line).filter(|(mark, _)| mark != "end").collect();
        Counted { lines: lines.into_iter() }
    }

    fn next(&mut self, side: &str) -> f64 {
        let (mark, number) = self.lines.next().expect("fewer calls were counted than there are");
        assert_eq!(mark, side);
        number / CALLS as f64
    }
}

impl Meter for Counted {
    fn measure(&mut self, _: impl FnMut(), _: impl FnMut(), limit: Option<impl FnMut()>) -> Costs {
        Costs { rust: self.next("rust"), ours: self.next("ours"), limit: limit.map(|_| self.next("limit")) }
    }

    fn alone(&mut self, _: impl FnMut()) -> f64 {
        self.next("ours")
    }
}
