//! The run: nodes until the search has ended or the budget is used.

use crate::sound::examine;
use crate::starts::{least_starts, Ends, Table};
use crate::{Batch, Best, Clash, Refusal, Search, Side, Turn, JOBS};

/// What a run answers.
#[derive(Clone, Copy, Debug, PartialEq, Eq)]
pub enum Answer {
    Spent { total: u32 },
    Plan { latency: u16, total: u32 },
    NoPlan { total: u32 },
}

impl Search {
    /// Visits up to `budget` nodes. With a plan the first n places of `starts` are its starts.
    pub fn run(&mut self, budget: u32, starts: &mut [u16]) -> Result<Answer, Refusal> {
        if budget > 1_000_000 {
            return Err(Refusal(11));
        }
        let (list, path) = examine(self).ok_or(Refusal(12))?;
        if starts.len() < self.batch.n.into() {
            return Err(Refusal(13));
        }
        if !self.ended && self.total + budget > 100_000_000 {
            return Err(Refusal(14));
        }
        self.visit_nodes(budget, &list, path);
        Ok(self.answer(starts))
    }

    fn visit_nodes(&mut self, budget: u32, list: &[Clash], path: Vec<Turn>) {
        let stays = self.batch.jobs().iter().map(|job| job.stay() as i32).collect();
        let (ends, table) = (Ends::new(self.batch.windows()), Table::new(self.batch.n.into()));
        let mut work = Work { batch: &self.batch, list, stays, ends, table, path, best: self.best };
        let mut left = budget;
        while !self.ended && left > 0 {
            self.ended = !work.visit();
            self.total += 1;
            left -= 1;
        }
        self.best = work.best;
        let turns = work.path.into_iter().map(Some).chain(std::iter::repeat(None));
        for (place, turn) in self.path.iter_mut().zip(turns) {
            *place = turn;
        }
    }

    fn answer(&self, starts: &mut [u16]) -> Answer {
        let total = self.total;
        match self.best {
            _ if !self.ended => Answer::Spent { total },
            None => Answer::NoPlan { total },
            Some(best) => {
                let n = self.batch.n.into();
                starts[..n].copy_from_slice(&best.starts[..n]);
                Answer::Plan { latency: best.latency, total }
            }
        }
    }
}

/// What a run works on from node to node.
struct Work<'a> {
    batch: &'a Batch,
    list: &'a [Clash],
    stays: Vec<i32>,
    ends: Ends,
    table: Table,
    path: Vec<Turn>,
    best: Option<Best>,
}

impl Work<'_> {
    /// Visits one node; false when it was the last.
    fn visit(&mut self) -> bool {
        self.fill_table();
        let Some(starts) = least_starts(&self.table, &self.ends) else {
            return self.go_back();
        };
        let latency = self.latency(&starts);
        if self.best.is_some_and(|best| latency >= i32::from(best.latency)) {
            return self.go_back();
        }
        if let Some(clash) = self.first_met(&starts) {
            self.path.push(Turn { clash: clash as u16, side: Side::Above });
            return true;
        }
        let n = self.batch.n.into();
        let mut best = Best { latency: latency as u16, starts: [0; JOBS] };
        for (place, start) in best.starts.iter_mut().zip(&starts[..n]) {
            *place = *start as u16;
        }
        self.best = Some(best);
        self.go_back()
    }

    fn fill_table(&mut self) {
        self.table.fill(self.batch.delays());
        for turn in &self.path {
            let clash = self.list[usize::from(turn.clash)];
            let (first, second, distance) = (clash.first.into(), clash.second.into(), i32::from(clash.distance));
            match turn.side {
                Side::Above => self.table.take(first, second, distance + 1),
                Side::Below => self.table.take(second, first, 1 - distance),
            }
        }
    }

    fn latency(&self, starts: &[i32; JOBS]) -> i32 {
        let finishes = self.stays.iter().zip(starts).map(|(stay, start)| start + stay);
        finishes.max().unwrap_or(0)
    }

    fn first_met(&self, starts: &[i32; JOBS]) -> Option<usize> {
        self.list.iter().position(|clash| starts[usize::from(clash.second)] - starts[usize::from(clash.first)] == i32::from(clash.distance))
    }

    /// Drops turns to the lower side and turns the last one left there; false when none is left.
    fn go_back(&mut self) -> bool {
        while let Some(turn) = self.path.last_mut() {
            if turn.side == Side::Above {
                turn.side = Side::Below;
                return true;
            }
            self.path.pop();
        }
        false
    }
}
