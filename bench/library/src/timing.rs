//! Time of the library and of the plain search, in turns.

use crate::contender::State;
use std::time::{Duration, Instant};

/// Measurements of each; the median counts.
const ROUNDS: usize = 9;
/// One measurement takes at least about so long.
const LEAST: Duration = Duration::from_millis(200);

/// Seconds for one piece of work, medians.
pub struct Comparison {
    pub library: f64,
    pub plain: f64,
}

/// Measures a piece of work of both in turns, the first place changing from round to round. Each closure does its work the given number of times and gives what
/// it came to; an error tells where the two differ.
pub fn compare(mut library: impl FnMut(u32) -> State, mut plain: impl FnMut(u32) -> State) -> Result<Comparison, String> {
    let (often, plain_often) = (enough(&mut library), enough(&mut plain));
    let mut taken: [Vec<f64>; 2] = Default::default();
    for round in 0..ROUNDS {
        let states = if round % 2 == 0 {
            let first = timed(&mut library, often, &mut taken[0]);
            (first, timed(&mut plain, plain_often, &mut taken[1]))
        } else {
            let first = timed(&mut plain, plain_often, &mut taken[1]);
            (timed(&mut library, often, &mut taken[0]), first)
        };
        if states.0 != states.1 {
            return Err(format!("the library comes to {:?}, the plain search to {:?}", states.0, states.1));
        }
    }
    let [library, plain] = taken.map(median);
    Ok(Comparison { library, plain })
}

/// Does the work the given number of times and notes the seconds for one.
fn timed(work: &mut impl FnMut(u32) -> State, times: u32, taken: &mut Vec<f64>) -> State {
    let begin = Instant::now();
    let state = work(times);
    taken.push(begin.elapsed().as_secs_f64() / f64::from(times));
    state
}

/// How often the work must be done to take LEAST.
fn enough(work: &mut impl FnMut(u32) -> State) -> u32 {
    let mut times = 1;
    loop {
        let begin = Instant::now();
        work(times);
        let took = begin.elapsed();
        if took * 4 >= LEAST {
            let share = LEAST.as_secs_f64() / took.as_secs_f64();
            return (f64::from(times) * share).ceil() as u32;
        }
        times *= 2;
    }
}

fn median(mut values: Vec<f64>) -> f64 {
    values.sort_unstable_by(f64::total_cmp);
    values[values.len() / 2]
}
