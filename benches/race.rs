//! A race: all take their turn in every round, so that a busy moment of the machine falls on all alike; the best turn
//! of each counts.

use std::hint::black_box;
use std::io;

#[repr(C)]
struct Time {
    seconds: i64,
    nanoseconds: i64,
}

extern "C" {
    fn clock_gettime(clock: i32, time: *mut Time) -> i32;
}

/// CLOCK_THREAD_CPUTIME_ID of Linux: the time for which this thread had a processor.
const THREAD_TIME: i32 = 3;

fn thread_seconds() -> f64 {
    let mut time = Time { seconds: 0, nanoseconds: 0 };
    // SAFETY: the pointer is to a timespec as Linux has it on x86-64 and Arm, for the call to fill.
    let status = unsafe { clock_gettime(THREAD_TIME, &mut time) };
    assert!(status == 0, "the thread's time cannot be read: {}", io::Error::last_os_error());
    time.seconds as f64 + time.nanoseconds as f64 * 1e-9
}

/// Nothing for one that is not there.
type Turn<'a> = Option<Box<dyn FnMut() + 'a>>;

pub struct Race<'a> {
    pieces: usize,
    turns: Vec<Turn<'a>>,
}

impl<'a> Race<'a> {
    /// A race in which each turn is so many pieces of work.
    pub fn of(pieces: usize) -> Race<'a> {
        Race { pieces, turns: Vec::new() }
    }

    /// One more takes part, who does the pieces from 0 on.
    pub fn enter<T>(&mut self, mut piece: impl FnMut(usize) -> T + 'a) {
        let pieces = self.pieces;
        self.turns.push(Some(Box::new(move || {
            for i in 0..pieces {
                black_box(piece(black_box(i)));
            }
        })));
    }

    /// One more is not there.
    pub fn miss(&mut self) {
        self.turns.push(None);
    }

    /// The best time for a piece of work, in seconds.
    pub fn best_times(mut self, rounds: usize) -> Vec<Option<f64>> {
        let mut best = vec![None; self.turns.len()];
        for _ in 0..rounds {
            for (turn, best) in self.turns.iter_mut().zip(&mut best) {
                let Some(turn) = turn else {
                    continue;
                };
                let began = thread_seconds();
                turn();
                let time = (thread_seconds() - began) / self.pieces as f64;
                *best = Some(best.map_or(time, |best: f64| best.min(time)));
            }
        }
        best
    }
}
