//! A batch as the record holds it and a caller reads it: jobs, delays and windows in the C layout, and rests.
use std::fmt;

/// A delay: job `to` starts at least `weight` ticks after job `from`.
#[repr(C)]
#[derive(Clone, Copy, Debug, PartialEq, Eq, Hash)]
pub struct Delay {
    /// The job that the delay counts from, below the number of jobs.
    pub from: u8,
    /// The job that is held back, another one.
    pub to: u8,
    /// The ticks, -1,000 to 1,000.
    pub weight: i16,
}

/// A job: which stations it holds in which of its ticks.
#[repr(C)]
#[derive(Clone, Copy, PartialEq, Eq, Hash)]
pub struct Job {
    pub(crate) ticks: u16,
    pub(crate) masks: [u16; 16],
}

impl Job {
    /// How many ticks the job's table has, 1 to 16, empty ones included.
    #[must_use]
    pub fn ticks(&self) -> usize {
        usize::from(self.ticks)
    }

    /// The stations of each tick: bit s of mask a is set where the job holds station s, 0 to 15, in its tick a.
    #[must_use]
    pub fn masks(&self) -> &[u16] {
        &self.masks[..self.ticks()]
    }
}

impl fmt::Debug for Job {
    fn fmt(&self, out: &mut fmt::Formatter<'_>) -> fmt::Result {
        out.debug_struct("Job").field("masks", &self.masks()).finish()
    }
}

/// A job's window: its earliest and its latest start, and whether the batch file has a line for them.
#[repr(C)]
#[derive(Clone, Copy, PartialEq, Eq, Hash)]
pub struct Window {
    pub(crate) lined: u16,
    pub(crate) earliest: u16,
    pub(crate) latest: u16,
}

impl Window {
    /// The window of a job without a line.
    pub(crate) const OPEN: Window = Window { lined: 0, earliest: 0, latest: u16::MAX };

    /// Whether the batch file has a line for it. Without one the earliest start is 0 and the latest 65,535.
    #[must_use]
    pub fn has_line(&self) -> bool {
        self.lined != 0
    }

    /// The job starts in this tick or later; 0 to 20,000.
    #[must_use]
    pub fn earliest(&self) -> u16 {
        self.earliest
    }

    /// The job starts in this tick or earlier.
    #[must_use]
    pub fn latest(&self) -> u16 {
        self.latest
    }
}

impl fmt::Debug for Window {
    fn fmt(&self, out: &mut fmt::Formatter<'_>) -> fmt::Result {
        out.debug_struct("Window")
            .field("has_line", &self.has_line())
            .field("earliest", &self.earliest())
            .field("latest", &self.latest())
            .finish()
    }
}

/// A station's rest: different jobs hold it in ticks that are more than `ticks` apart. A job's own ticks need no rest between them.
#[derive(Clone, Copy, Debug, PartialEq, Eq, Hash)]
pub struct Rest {
    /// The station, 0 to 15.
    pub station: u8,
    /// The ticks, 1 to 7.
    pub ticks: u8,
}
