//! Times by turns: every contestant makes some calls, then the next, so that all meet the same machine.

use std::time::{Duration, Instant};

/// For how long a contest is measured, and at least how many turns each contestant gets.
const BUDGET: Duration = Duration::from_millis(300);
const TURNS: usize = 25;

/// How long a turn lasts at least, so that reading the clock does not count.
const TURN: Duration = Duration::from_micros(10);

/// What is timed; a contestant that is not there has no time.
pub type Contestant<'a> = Option<Box<dyn FnMut() + 'a>>;

/// The time of some calls, in nanoseconds.
fn time(contestant: &mut dyn FnMut(), calls: usize) -> f64 {
    let start = Instant::now();
    for _ in 0..calls {
        contestant();
    }
    start.elapsed().as_nanos() as f64
}

/// How many calls make a turn.
fn calls_of_a_turn(contestant: &mut dyn FnMut()) -> usize {
    let mut calls = 1;
    while time(contestant, calls) < TURN.as_nanos() as f64 {
        calls *= 2;
    }
    calls
}

fn median(mut times: Vec<f64>) -> f64 {
    times.sort_unstable_by(f64::total_cmp);
    times[times.len() / 2]
}

/// What a contest gives for a contestant.
#[derive(Clone, Copy)]
pub struct Standing {
    /// The median time of a call, in nanoseconds.
    pub time: f64,
    /// The median, over the rounds, of the first contestant's time divided by this one's.
    pub ratio: f64,
}

/// The standing of each contestant that is there; the first one is.
pub fn contest<const N: usize>(mut contestants: [Contestant; N]) -> [Option<Standing>; N] {
    let mut calls = [0; N];
    for (calls, contestant) in calls.iter_mut().zip(&mut contestants) {
        *calls = contestant.as_mut().map_or(0, |call| calls_of_a_turn(call));
    }
    let mut times = [(); N].map(|()| Vec::new());
    let start = Instant::now();
    while times[0].len() < TURNS || start.elapsed() < BUDGET {
        for ((contestant, &calls), times) in contestants.iter_mut().zip(&calls).zip(&mut times) {
            if let Some(call) = contestant {
                times.push(time(call, calls) / calls as f64);
            }
        }
    }
    let first = times[0].clone();
    times.map(|times| {
        let ratios = first.iter().zip(&times).map(|(first, time)| first / time).collect();
        (!times.is_empty()).then(|| Standing { ratio: median(ratios), time: median(times) })
    })
}
