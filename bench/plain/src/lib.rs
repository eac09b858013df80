//! The planner's search once more, in plain Rust: the peer that the proved library is measured beside.
//!
//! It takes the scope's steps as they stand (soundness of the record, the clash list and each job's stay once a run; at each node the weight table from delays and
//! turns, rounds from the earliest starts, latency, the first met clash, going back), written as one writes Rust for use: safe code, no dependency, nothing allocated at a node.

mod file;
mod search;
mod sound;
mod starts;

pub use file::open;
pub use search::Answer;

pub const JOBS: usize = 24;
pub const DELAYS: usize = 128;
pub const TICKS: usize = 16;
pub const STATIONS: usize = 16;
pub const CLASHES: usize = 1024;

/// The number of a refusal.
#[derive(Clone, Copy, Debug, PartialEq, Eq)]
pub struct Refusal(pub u8);

/// A reservation table: which stations the job holds in each of its ticks.
#[derive(Clone, Copy, Debug, Default, PartialEq, Eq)]
pub struct Job {
    pub ticks: u8,
    pub masks: [u16; TICKS],
}

impl Job {
    /// The ticks from the job's start to its finish: those up to the last in which it holds a station.
    pub fn stay(&self) -> usize {
        self.masks[..self.ticks.into()].iter().rposition(|mask| *mask != 0).map_or(0, |tick| tick + 1)
    }
}

/// `to` starts at least `weight` ticks after `from`.
#[derive(Clone, Copy, Debug, Default, PartialEq, Eq)]
pub struct Delay {
    pub from: u8,
    pub to: u8,
    pub weight: i16,
}

/// A job's earliest and latest start, and whether the file has a line for them.
#[derive(Clone, Copy, Debug, PartialEq, Eq)]
pub struct Window {
    pub lined: bool,
    pub earliest: u16,
    pub latest: u16,
}

impl Window {
    /// That of a job without a line.
    pub const OPEN: Window = Window { lined: false, earliest: 0, latest: u16::MAX };
}

#[derive(Clone, Debug, PartialEq, Eq)]
pub struct Batch {
    pub n: u8,
    pub m: u8,
    pub edition: u8,
    pub jobs: [Job; JOBS],
    pub delays: [Delay; DELAYS],
    pub windows: [Window; JOBS],
    /// The rest of each station: different jobs hold it in ticks that are more than so many apart. 0 without a line.
    pub rests: [u8; STATIONS],
}

impl Batch {
    pub fn jobs(&self) -> &[Job] {
        &self.jobs[..self.n.into()]
    }

    pub fn delays(&self) -> &[Delay] {
        &self.delays[..self.m.into()]
    }

    pub fn windows(&self) -> &[Window] {
        &self.windows[..self.n.into()]
    }
}

/// The side that a turn takes of its clash (i, j, d): job j more than d ticks after job i, or less.
#[derive(Clone, Copy, Debug, PartialEq, Eq)]
pub enum Side {
    Above,
    Below,
}

/// A branching decision on a clash of the list.
#[derive(Clone, Copy, Debug, PartialEq, Eq)]
pub struct Turn {
    pub clash: u16,
    pub side: Side,
}

/// The shortest plan found so far.
#[derive(Clone, Copy, Debug, PartialEq, Eq)]
pub struct Best {
    pub latency: u16,
    pub starts: [u16; JOBS],
}

/// A search between two runs: plain data, which may come from anywhere.
#[derive(Clone, Debug, PartialEq, Eq)]
pub struct Search {
    pub batch: Batch,
    pub path: [Option<Turn>; CLASHES],
    pub best: Option<Best>,
    pub total: u32,
    pub ended: bool,
}

impl Search {
    pub fn fresh(batch: Batch) -> Search {
        Search { batch, path: [None; CLASHES], best: None, total: 0, ended: false }
    }

    /// The number of turns on the path.
    pub fn depth(&self) -> usize {
        self.path.iter().take_while(|turn| turn.is_some()).count()
    }
}

/// Two jobs hold one station in ticks no further apart than its rest exactly when `second` starts `distance` ticks after `first`, for some
/// listed clash.
#[derive(Clone, Copy, Debug, PartialEq, Eq)]
pub struct Clash {
    pub first: u8,
    pub second: u8,
    pub distance: i8,
}

/// The largest distance of two held ticks, the longest rest, and the largest distance of a clash.
const BETWEEN: usize = TICKS - 1;
const REST: usize = 7;
const FARTHEST: usize = BETWEEN + REST;

/// The clash list, by first job, second job and distance.
pub fn clashes(batch: &Batch) -> Vec<Clash> {
    let (jobs, resting) = (batch.jobs(), resting(&batch.rests));
    let mut list = Vec::with_capacity(CLASHES);
    for (i, first) in jobs.iter().enumerate() {
        for (j, second) in jobs.iter().enumerate().skip(i + 1) {
            let mut met = resting.iter().fold(0, |met, (rest, stations)| met | widened(apart(first, second, *stations), *rest));
            while met != 0 {
                let distance = met.trailing_zeros() as i8 - FARTHEST as i8;
                list.push(Clash { first: i as u8, second: j as u8, distance });
                met &= met - 1;
            }
        }
    }
    list
}

/// Each rest that stations have, 0 too, with the mask of these stations.
fn resting(rests: &[u8; STATIONS]) -> Vec<(usize, u16)> {
    let stations = |rest| rests.iter().rev().fold(0, |mask, other| mask << 1 | u16::from(usize::from(*other) == rest));
    (0..=REST).map(|rest| (rest, stations(rest))).filter(|(_, mask)| *mask != 0).collect()
}

/// The distances at which the jobs hold one of these stations in the same tick: bit d + BETWEEN for distance d.
fn apart(first: &Job, second: &Job, stations: u16) -> u64 {
    let mut met = 0;
    for (a, x) in first.masks[..first.ticks.into()].iter().enumerate() {
        for (b, y) in second.masks[..second.ticks.into()].iter().enumerate() {
            met |= u64::from(x & y & stations != 0) << (BETWEEN + a - b);
        }
    }
    met
}

/// The distances no further than a rest from these: bit d + FARTHEST for distance d.
fn widened(met: u64, rest: usize) -> u64 {
    (0..2 * rest).fold(met << (REST - rest), |met, _| met | met << 1)
}
