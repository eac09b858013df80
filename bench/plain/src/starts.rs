//! The weight table and least starts.

use crate::{Delay, Window, JOBS};

/// An empty place: so low that no start plus it is above 0.
const EMPTY: i32 = -1_000_000;

/// For each pair of jobs the largest weight of an inequality from one to the other.
pub struct Table {
    n: usize,
    weights: [[i32; JOBS]; JOBS],
}

impl Table {
    pub fn new(n: usize) -> Table {
        Table { n, weights: [[EMPTY; JOBS]; JOBS] }
    }

    /// Empties the table and takes the delays in.
    pub fn fill(&mut self, delays: &[Delay]) {
        self.weights[..self.n].fill([EMPTY; JOBS]);
        for delay in delays {
            self.take(delay.from.into(), delay.to.into(), delay.weight.into());
        }
    }

    /// Takes in that job `to` starts at least `weight` ticks after job `from`.
    pub fn take(&mut self, from: usize, to: usize, weight: i32) {
        let place = &mut self.weights[from][to];
        *place = weight.max(*place);
    }
}

/// The earliest and the latest starts, one place a job.
pub struct Ends {
    earliest: [i32; JOBS],
    latest: [i32; JOBS],
}

impl Ends {
    pub fn new(windows: &[Window]) -> Ends {
        let mut ends = Ends { earliest: [0; JOBS], latest: [i32::MAX; JOBS] };
        for (job, window) in windows.iter().enumerate() {
            ends.earliest[job] = window.earliest.into();
            ends.latest[job] = window.latest.into();
        }
        ends
    }

    /// Whether no start passes its latest.
    fn kept(&self, starts: &[i32; JOBS]) -> bool {
        starts.iter().zip(&self.latest).all(|(start, latest)| start <= latest)
    }
}

/// The least starts that keep all inequalities of the table and the ends, if there are any.
pub fn least_starts(table: &Table, ends: &Ends) -> Option<[i32; JOBS]> {
    let mut starts = ends.earliest;
    for _ in 0..table.n {
        let next = round(table, &starts);
        if next == starts {
            return ends.kept(&starts).then_some(starts);
        }
        starts = next;
    }
    None
}

/// Each start after a round comes from the starts before it.
fn round(table: &Table, starts: &[i32; JOBS]) -> [i32; JOBS] {
    let mut next = *starts;
    for (row, start) in table.weights[..table.n].iter().zip(starts) {
        for (place, weight) in next.iter_mut().zip(row) {
            *place = (*place).max(start + weight);
        }
    }
    next
}
