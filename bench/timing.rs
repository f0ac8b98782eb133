//! Calls timed: the two take turns, each with a few calls at a time, and the median of all turns counts.

use crate::agreement::ROOM;
use crate::calls::Call;
use std::hint::black_box;
use std::time::{Duration, Instant};

/// A turn has so many calls that it lasts about so long.
const TURN: f64 = 20.0;
const LEAST_TURNS: usize = 51;

/// Microseconds a call, of the plain version and of the proved library.
pub struct Times {
    pub plain: f64,
    pub proved: f64,
}

impl Times {
    pub fn ratio(&self) -> f64 {
        self.proved / self.plain
    }

    /// The mean over all calls of a cell, each of which is timed for itself.
    pub fn of(calls: &[Call], time: Duration) -> Times {
        let mut races: Vec<Race> = calls.iter().map(Race::of).collect();
        let start = Instant::now();
        let mut turns = 0;
        while turns < LEAST_TURNS || start.elapsed() < time {
            races.iter_mut().for_each(Race::turn);
            turns += 1;
        }
        let mean = |median: fn(&mut Race) -> f64, races: &mut [Race]| {
            races.iter_mut().map(median).sum::<f64>() / calls.len() as f64
        };
        Times {
            plain: mean(|race| median(&mut race.plain.times), &mut races),
            proved: mean(|race| median(&mut race.proved.times), &mut races),
        }
    }
}

fn median(times: &mut [f64]) -> f64 {
    times.sort_unstable_by(f64::total_cmp);
    times[times.len() / 2]
}

type Caller = fn(&Call, &mut [u8]) -> i32;

/// One of the two: its call, how many times it is made in a turn, and what the turns took.
struct Runner {
    caller: Caller,
    calls: usize,
    times: Vec<f64>,
    out: Vec<u8>,
}

impl Runner {
    fn of(caller: Caller, call: &Call) -> Runner {
        let mut runner = Runner {
            caller,
            calls: 1,
            times: vec![],
            out: vec![0; ROOM],
        };
        (0..20).for_each(|_| runner.turn(call));
        runner.calls = (TURN / median(&mut runner.times)).ceil() as usize;
        runner.times.clear();
        runner
    }

    fn turn(&mut self, call: &Call) {
        let start = Instant::now();
        for _ in 0..self.calls {
            black_box((self.caller)(black_box(call), &mut self.out));
        }
        let time = start.elapsed().as_secs_f64() * 1e6;
        self.times.push(time / self.calls as f64);
    }
}

struct Race<'a> {
    call: &'a Call<'a>,
    plain: Runner,
    proved: Runner,
}

impl<'a> Race<'a> {
    fn of(call: &'a Call<'a>) -> Race<'a> {
        Race {
            call,
            plain: Runner::of(|call, out| call.plain(out), call),
            proved: Runner::of(|call, out| call.proved(out), call),
        }
    }

    fn turn(&mut self) {
        self.plain.turn(self.call);
        self.proved.turn(self.call);
    }
}
