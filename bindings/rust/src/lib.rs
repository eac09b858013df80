//! Plans batches of a print kiosk: each job gets a starting tick so that every delay is kept, no station is held by two jobs in one tick, and
//! the plan is the shortest there is. This crate wraps the five calls of the proved planner's library, `libplanner_c.a`.
//!
//! A [`Search`] is opened once for a batch file and then run in budgets of search nodes, as small as the caller likes, until its answer is
//! no longer [`Answer::Spent`]. What comes out does not depend on how the nodes were shared out among the runs.
//!
//! ```
//! use planner::{Answer, Search};
//!
//! // Two jobs on one station: the second needs it in its first tick only.
//! let mut search = Search::open(b"A0010200\nA1010001\nA103000100020002\n")?;
//! let mut answer = search.run(0)?;
//! while let Answer::Spent { .. } = answer {
//!     // .. redraw the screen ..
//!     answer = search.run(1)?;
//! }
//! assert_eq!(answer, Answer::Plan { latency: 3, total: 3 });
//! let plan = search.plan().expect("the answer was a plan");
//! assert_eq!(plan.starts(), [1, 0]);
//! assert_eq!(search.plan_text()?, b"B00102000300000003\nB1000001\nB1010000\n");
//! # Ok::<(), planner::Refusal>(())
//! ```
//!
//! A batch file of edition 02 may give jobs a [`Window`], an earliest and a latest start, and stations a [`Rest`]; a plan with a start outside its
//! window is not valid, and neither is one in which two jobs hold a station in ticks that are no further apart than its rest. A plan text, wherever
//! it comes from, is judged beside its batch file by [`judge`].
//!
//! # Linking
//!
//! The build links `libplanner_c.a` from the folder that the environment variable `PLANNER_LIBRARY_DIR` names, else from the repository's
//! `crates/planner_c/out`, where `rt lib` leaves it. It is for Linux on x86-64 and stops for any other target. An archive of another
//! version than [`VERSION`] does not link.
#![warn(missing_docs)]

mod batch;
mod ffi;
#[cfg(doctest)]
mod misuse;
mod refusal;

pub use batch::{Delay, Job, Rest, Window};
pub use refusal::Refusal;
use std::fmt;

/// The version of the library that this crate calls. It rises whenever the record's layout, a number's meaning or a call changes, and when a call is added.
pub const VERSION: u32 = 5;
/// The most jobs of a batch.
pub const JOBS: usize = 24;
/// The stations, numbered 0 to 15.
pub const STATIONS: usize = 16;
/// The largest earliest start of a job.
pub const EARLIEST: u16 = 20_000;
/// The longest rest of a station, in ticks.
pub const REST: u8 = 7;
/// The most nodes of one run.
pub const BUDGET: u32 = 1_000_000;
/// The most nodes of a search, all runs together.
pub const TOTAL: u32 = 100_000_000;
/// The length of the longest plan text in bytes.
pub const PLAN_TEXT: usize = 235;
/// The length of the longest batch text in bytes.
pub const BATCH_TEXT: usize = 3497;

/// What a run came to. `total` is the number of nodes visited since the search was opened.
#[must_use = "the answer says whether the search goes on"]
#[derive(Clone, Copy, Debug, PartialEq, Eq, Hash)]
pub enum Answer {
    /// The budget is used and the search goes on: run again.
    Spent {
        /// Nodes visited so far.
        total: u32,
    },
    /// The search has ended, and [`Search::plan`] is the shortest valid plan.
    Plan {
        /// The plan's latency: the number of ticks until the last station is let go. A job that holds none counts with its start.
        latency: u16,
        /// Nodes that the search took.
        total: u32,
    },
    /// The search has ended: no valid plan exists.
    NoPlan {
        /// Nodes that the search took.
        total: u32,
    },
}

/// A start for each job, and the latency that comes of them.
#[must_use]
#[derive(Clone, Copy, PartialEq, Eq, Hash)]
pub struct Plan {
    latency: u16,
    n: u8,
    starts: [u16; JOBS],
}

impl Plan {
    /// The latency: the number of ticks until the last station is let go. A job that holds none counts with its start, so that the latency is 0
    /// where no job holds a station and all start at 0.
    #[must_use]
    pub fn latency(&self) -> u16 {
        self.latency
    }

    /// The starting tick of each job, in the order of the batch file.
    #[must_use]
    pub fn starts(&self) -> &[u16] {
        &self.starts[..usize::from(self.n)]
    }
}

impl fmt::Debug for Plan {
    fn fmt(&self, out: &mut fmt::Formatter<'_>) -> fmt::Result {
        out.debug_struct("Plan").field("latency", &self.latency()).field("starts", &self.starts()).finish()
    }
}

/// The search for a batch's shortest plan: 5,644 bytes of plain data, to be kept between runs, cloned or sent to another thread.
#[derive(Clone, PartialEq, Eq)]
pub struct Search {
    record: ffi::Record,
}

impl Search {
    /// Opens a batch file.
    ///
    /// ```
    /// use planner::{Refusal, Search};
    /// assert_eq!(Search::open(b"A0010000\n"), Err(Refusal::Count));
    /// ```
    ///
    /// # Errors
    ///
    /// Refusals 1 [`Line`](Refusal::Line), 2 [`Frame`](Refusal::Frame), 3 [`Edition`](Refusal::Edition), 4 [`Count`](Refusal::Count),
    /// 5 [`Job`](Refusal::Job), 6 [`Weight`](Refusal::Weight), 7 [`Missing`](Refusal::Missing), 8 [`Extra`](Refusal::Extra),
    /// 9 [`Clashes`](Refusal::Clashes), 10 [`Delays`](Refusal::Delays), 20 [`Window`](Refusal::Window) and 21 [`Rest`](Refusal::Rest). They are asked
    /// line by line, in a line 7 first and then 1 to 6, 20 and 21; after the last line 8, 9 and 10. The first whose condition holds is given.
    pub fn open(file: &[u8]) -> Result<Search, Refusal> {
        assert_version();
        let mut record = ffi::Record::blank();
        // SAFETY: the file's pointer is valid for its length and not null, also where it is empty; the record is a local of the C layout.
        let refusal = unsafe { ffi::planner_open(file.as_ptr(), file.len(), &mut record) };
        accepted(refusal)?;
        Ok(Search { record })
    }

    /// Visits at most `budget` nodes. A search that has ended visits none and gives its result again.
    ///
    /// # Errors
    ///
    /// Refusal 11 [`Budget`](Refusal::Budget) above [`BUDGET`]; refusal 14 [`Total`](Refusal::Total) if the search has not ended and its total
    /// would pass [`TOTAL`]. Then nothing is changed.
    pub fn run(&mut self, budget: u32) -> Result<Answer, Refusal> {
        let mut starts = [0u16; JOBS];
        // SAFETY: the record is ours alone by &mut; the starts are a local of that many places; neither overlaps the other.
        let answer = unsafe { ffi::planner_run(&mut self.record, budget, starts.as_mut_ptr(), starts.len()) };
        accepted(answer.refusal)?;
        match answer.kind {
            ffi::SPENT => Ok(Answer::Spent { total: answer.total }),
            ffi::PLAN => {
                debug_assert_eq!(starts[..self.jobs().len()], self.record.starts[..self.jobs().len()]);
                Ok(Answer::Plan { latency: answer.latency, total: answer.total })
            }
            ffi::NO_PLAN => Ok(Answer::NoPlan { total: answer.total }),
            kind => unreachable!("planner_run answers no kind {kind} without a refusal"),
        }
    }

    /// The shortest plan, once the search has ended; none while it goes on, or where no valid plan exists.
    #[must_use]
    pub fn plan(&self) -> Option<Plan> {
        self.best().filter(|_| self.has_ended())
    }

    /// The shortest plan known so far: valid, and maybe not yet the shortest.
    #[must_use]
    pub fn best(&self) -> Option<Plan> {
        if self.record.found == 0 {
            return None;
        }
        let (n, mut starts) = (self.jobs().len(), [0; JOBS]);
        starts[..n].copy_from_slice(&self.record.starts[..n]);
        Some(Plan { latency: self.record.latency, n: self.record.batch.n, starts })
    }

    /// Nodes visited since the search was opened.
    #[must_use]
    pub fn total(&self) -> u32 {
        self.record.total
    }

    /// Whether the search has ended.
    #[must_use]
    pub fn has_ended(&self) -> bool {
        self.record.ended != 0
    }

    /// The batch's jobs, in the order of the batch file.
    ///
    /// ```
    /// let search = planner::Search::open(b"A0010200\nA1010001\nA103000100020002\n")?;
    /// let [first, second] = search.jobs() else { panic!("the file has two jobs") };
    /// assert_eq!((first.ticks(), first.masks()), (1, &[0x0001][..]));
    /// assert_eq!((second.ticks(), second.masks()), (3, &[0x0001, 0x0002, 0x0002][..]));
    /// # Ok::<(), planner::Refusal>(())
    /// ```
    #[must_use]
    pub fn jobs(&self) -> &[Job] {
        &self.record.batch.jobs[..usize::from(self.record.batch.n)]
    }

    /// The batch's delays, in the order of the batch file.
    ///
    /// ```
    /// use planner::{Delay, Search};
    /// let search = Search::open(b"A0010202\nA1010001\nA1010002\nA200010002\nA20100FFFC\n")?;
    /// assert_eq!(search.delays(), [Delay { from: 0, to: 1, weight: 2 }, Delay { from: 1, to: 0, weight: -4 }]);
    /// # Ok::<(), planner::Refusal>(())
    /// ```
    #[must_use]
    pub fn delays(&self) -> &[Delay] {
        &self.record.batch.delays[..usize::from(self.record.batch.m)]
    }

    /// The edition of the batch file, 1 or 2.
    #[must_use]
    pub fn edition(&self) -> u16 {
        self.record.batch.edition
    }

    /// The windows of the batch's jobs, one for each, in the order of the jobs.
    ///
    /// ```
    /// let search = planner::Search::open(b"A0020200\nA1010001\nA1010002\nA30100050009\n")?;
    /// let [first, second] = search.windows() else { panic!("the file has two jobs") };
    /// assert_eq!((first.has_line(), first.earliest(), first.latest()), (false, 0, 65535));
    /// assert_eq!((second.has_line(), second.earliest(), second.latest()), (true, 5, 9));
    /// # Ok::<(), planner::Refusal>(())
    /// ```
    #[must_use]
    pub fn windows(&self) -> &[Window] {
        &self.record.batch.windows[..usize::from(self.record.batch.n)]
    }

    /// The rests of the stations that have one, in the order of the batch file, stations rising.
    ///
    /// ```
    /// use planner::{Rest, Search};
    /// let search = Search::open(b"A0020100\nA1010008\nA40302\nA40F07\n")?;
    /// assert!(search.rests().eq([Rest { station: 3, ticks: 2 }, Rest { station: 15, ticks: 7 }]));
    /// # Ok::<(), planner::Refusal>(())
    /// ```
    #[must_use]
    pub fn rests(&self) -> impl Iterator<Item = Rest> + '_ {
        let all = (0..).zip(self.record.batch.rests).map(|(station, ticks)| Rest { station, ticks });
        all.filter(|rest| rest.ticks != 0)
    }

    /// Writes the plan text into the buffer's first bytes and gives their number; the rest of the buffer is left.
    ///
    /// # Errors
    ///
    /// Refusal 15 [`Unended`](Refusal::Unended) if the search has not ended; refusal 16 [`Buffer`](Refusal::Buffer) if the buffer is too short
    /// ([`PLAN_TEXT`] bytes always do). Then the buffer is left.
    pub fn write_plan(&self, buffer: &mut [u8]) -> Result<usize, Refusal> {
        // SAFETY: the record is only read; the buffer is ours alone by &mut, valid for its length and not null, also where it is empty.
        let text = unsafe { ffi::planner_write_plan(&self.record, buffer.as_mut_ptr(), buffer.len()) };
        accepted(text.refusal)?;
        Ok(text.length)
    }

    /// Writes the batch file, as it was opened, into the buffer's first bytes and gives their number; the rest of the buffer is left.
    ///
    /// # Errors
    ///
    /// Refusal 16 [`Buffer`](Refusal::Buffer) if the buffer is too short ([`BATCH_TEXT`] bytes always do). Then the buffer is left.
    pub fn write_batch(&self, buffer: &mut [u8]) -> Result<usize, Refusal> {
        // SAFETY: the record is only read; the buffer is ours alone by &mut, valid for its length and not null, also where it is empty.
        let text = unsafe { ffi::planner_write_batch(&self.record, buffer.as_mut_ptr(), buffer.len()) };
        accepted(text.refusal)?;
        Ok(text.length)
    }

    /// The plan text as bytes of its own.
    ///
    /// # Errors
    ///
    /// Refusal 15 [`Unended`](Refusal::Unended) if the search has not ended.
    pub fn plan_text(&self) -> Result<Vec<u8>, Refusal> {
        let mut buffer = [0; PLAN_TEXT];
        let length = self.write_plan(&mut buffer)?;
        Ok(buffer[..length].to_vec())
    }

    /// The batch file as bytes of its own, as it was opened.
    ///
    /// # Errors
    ///
    /// None: the library's call refuses with 12 [`Record`](Refusal::Record) and 16 [`Buffer`](Refusal::Buffer), and a search is always sound and the
    /// buffer here holds the longest text.
    pub fn batch_text(&self) -> Result<Vec<u8>, Refusal> {
        let mut buffer = [0; BATCH_TEXT];
        let length = self.write_batch(&mut buffer)?;
        Ok(buffer[..length].to_vec())
    }
}

impl fmt::Debug for Search {
    fn fmt(&self, out: &mut fmt::Formatter<'_>) -> fmt::Result {
        out.debug_struct("Search")
            .field("jobs", &self.jobs().len())
            .field("total", &self.total())
            .field("has_ended", &self.has_ended())
            .field("best", &self.best())
            .finish_non_exhaustive()
    }
}

/// Judges a plan text, wherever it comes from, beside the batch file that it is for. It passes exactly where the file opens, the text is in form and
/// names the batch's jobs in order, its starts are a valid plan, and its latency is theirs. Neither the total nor whether the plan is the shortest is
/// judged. The plan text of a [`Search`] that has ended with a plan passes with its file.
///
/// ```
/// use planner::{judge, Refusal};
///
/// // Two jobs on one station: the second needs it in its first tick only.
/// let file = b"A0010200\nA1010001\nA103000100020002\n";
/// assert_eq!(judge(file, b"B00102000300000003\nB1000001\nB1010000\n"), Ok(()));
/// // A longer plan passes too, as long as its latency is right.
/// assert_eq!(judge(file, b"B00102000400000000\nB1000000\nB1010001\n"), Ok(()));
/// assert_eq!(judge(file, b"B00102000300000000\nB1000000\nB1010001\n"), Err(Refusal::Invalid));
/// ```
///
/// # Errors
///
/// First the file's refusals 1 to 10, 20 and 21, as [`Search::open`] gives them; then, in this order, 17 [`Form`](Refusal::Form), asked of the whole
/// text, 18 [`Order`](Refusal::Order) and 19 [`Invalid`](Refusal::Invalid).
pub fn judge(file: &[u8], text: &[u8]) -> Result<(), Refusal> {
    assert_version();
    // SAFETY: each pointer is valid for its length and not null, also where the slice is empty; both are only read.
    accepted(unsafe { ffi::planner_judge(file.as_ptr(), file.len(), text.as_ptr(), text.len()) })
}

/// Asks the library for its version. Who calls this refers to a name that an archive of another version has not.
fn assert_version() {
    // SAFETY: the call takes nothing and touches no memory.
    let version = unsafe { ffi::planner_version_5() };
    assert_eq!(version, VERSION, "the library has another version than its function's name says");
}

/// The library's refusal number as a result: 0 is none.
fn accepted(number: u8) -> Result<(), Refusal> {
    match Refusal::from_number(number) {
        Some(refusal) => Err(refusal),
        None => {
            assert_eq!(number, 0, "the library has refusals 1 to 21");
            Ok(())
        }
    }
}

#[cfg(test)]
mod tests {
    use super::*;

    /// The refusals that need a record which no safe call makes, or makes only after 100,000,000 nodes.
    #[test]
    fn records_from_elsewhere() {
        let mut search = Search::open(b"A0010200\nA1010001\nA103000100020002\n").unwrap();
        search.record.total = TOTAL - 1;
        assert_eq!(search.run(2), Err(Refusal::Total));
        assert_eq!(search.run(1), Ok(Answer::Spent { total: TOTAL }));
        assert_eq!(search.run(1), Err(Refusal::Total));
        assert_eq!(search.run(0), Ok(Answer::Spent { total: TOTAL }));
        search.record.total = TOTAL + 1;
        let before = search.clone();
        assert_eq!(search.run(1), Err(Refusal::Record));
        assert_eq!(search.plan_text(), Err(Refusal::Record));
        assert_eq!(search.batch_text(), Err(Refusal::Record));
        assert!(search == before);
    }

    /// Editions and windows that no file has, and a window that comes to a search from elsewhere.
    #[test]
    fn windows_from_elsewhere() {
        let fresh = Search::open(b"A0010200\nA1010001\nA103000100020002\n").unwrap();
        let changed = |edition: u16, window: Window| {
            let mut search = fresh.clone();
            search.record.batch.edition = edition;
            search.record.batch.windows[0] = window;
            search
        };
        let window = |lined, earliest, latest| Window { lined, earliest, latest };
        let unsound = [
            changed(0, Window::OPEN),
            changed(3, Window::OPEN),
            changed(1, window(1, 0, 65535)),
            changed(2, window(0, 1, 65535)),
            changed(2, window(0, 0, 65534)),
            changed(2, window(1, EARLIEST + 1, 65535)),
            changed(2, window(1, 1, 0)),
        ];
        for mut search in unsound {
            assert_eq!((search.run(1), search.batch_text()), (Err(Refusal::Record), Err(Refusal::Record)), "{:?}", search.windows());
        }
        let mut search = changed(2, window(256, 0, 0));
        assert_eq!(search.run(3), Ok(Answer::Plan { latency: 4, total: 3 }));
        assert_eq!(search.batch_text().unwrap(), b"A0020200\nA1010001\nA103000100020002\nA30000000000\n");
        let mut last = changed(2, window(1, EARLIEST, 65535));
        assert_eq!(last.run(1), Ok(Answer::Plan { latency: EARLIEST + 1, total: 1 }));
    }

    /// Rests that no file has, and one that comes to a search from elsewhere.
    #[test]
    fn rests_from_elsewhere() {
        let fresh = Search::open(b"A0010200\nA1010001\nA103000100020002\n").unwrap();
        let changed = |edition: u16, station: usize, ticks: u8| {
            let mut search = fresh.clone();
            search.record.batch.edition = edition;
            search.record.batch.rests[station] = ticks;
            search
        };
        for mut search in [changed(1, 0, 1), changed(1, 15, 7), changed(2, 0, REST + 1), changed(2, 15, REST + 1), changed(2, 7, 255)] {
            let given: Vec<Rest> = search.rests().collect();
            assert_eq!((search.run(1), search.batch_text()), (Err(Refusal::Record), Err(Refusal::Record)), "{given:?}");
        }
        let mut search = changed(2, 0, 1);
        assert_eq!(search.run(100), Ok(Answer::Plan { latency: 3, total: 7 }));
        assert_eq!(search.best().unwrap().starts(), [2, 0]);
        assert_eq!(search.batch_text().unwrap(), b"A0020200\nA1010001\nA103000100020002\nA40001\n");
        assert_eq!(changed(2, STATIONS - 1, REST).run(3), Ok(Answer::Plan { latency: 3, total: 3 }));
    }
}
