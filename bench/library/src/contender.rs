//! The two searches that are measured, behind one set of calls.

/// What a search has come to; both contenders must agree on it.
#[derive(Debug, PartialEq, Eq)]
pub struct State {
    total: u32,
    ended: bool,
    best: Option<(u16, Vec<u16>)>,
}

/// A search that can be opened, copied and run.
pub trait Contender: Clone {
    /// The fresh search for a batch file, or the number of the refusal.
    fn opened(file: &[u8]) -> Result<Self, u8>;

    /// One run that visits up to `budget` nodes.
    fn advance(&mut self, budget: u32);

    fn state(&self) -> State;
}

impl Contender for planner::Search {
    fn opened(file: &[u8]) -> Result<Self, u8> {
        planner::Search::open(file).map_err(|refusal| refusal.number())
    }

    fn advance(&mut self, budget: u32) {
        let _ = self.run(budget).expect("the library continues a record of its own");
    }

    fn state(&self) -> State {
        let best = self.best().map(|plan| (plan.latency(), plan.starts().to_vec()));
        State { total: self.total(), ended: self.has_ended(), best }
    }
}

impl Contender for plain::Search {
    fn opened(file: &[u8]) -> Result<Self, u8> {
        plain::open(file).map_err(|refusal| refusal.0)
    }

    fn advance(&mut self, budget: u32) {
        let mut starts = [0; plain::JOBS];
        self.run(budget, &mut starts).expect("the plain search continues a record of its own");
    }

    fn state(&self) -> State {
        let n = self.batch.n.into();
        let best = self.best.map(|best| (best.latency, best.starts[..n].to_vec()));
        State { total: self.total, ended: self.ended, best }
    }
}
