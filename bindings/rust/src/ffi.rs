//! The C interface as include/planner.h has it: the same structs by the same names, the five calls, and the version.
use crate::batch::{Delay, Job, Window};
use std::mem::{align_of, offset_of, size_of};

#[repr(C)]
#[derive(Clone, PartialEq, Eq)]
pub struct Batch {
    pub n: u8,
    pub m: u8,
    pub edition: u16,
    pub jobs: [Job; 24],
    pub delays: [Delay; 128],
    pub windows: [Window; 24],
    pub rests: [u8; 16],
}

#[repr(C)]
#[derive(Clone, Copy, PartialEq, Eq)]
pub struct Turn {
    pub clash: u16,
    pub side: u16,
}

#[repr(C)]
#[derive(Clone, PartialEq, Eq)]
pub struct Record {
    pub total: u32,
    pub latency: u16,
    pub found: u8,
    pub ended: u8,
    pub starts: [u16; 24],
    pub batch: Batch,
    pub path: [Turn; 1024],
}

#[repr(C)]
pub struct Answer {
    pub kind: u8,
    pub refusal: u8,
    pub latency: u16,
    pub total: u32,
}

#[repr(C)]
pub struct Text {
    pub length: usize,
    pub refusal: u8,
}

pub const SPENT: u8 = 0;
pub const PLAN: u8 = 1;
pub const NO_PLAN: u8 = 2;

impl Record {
    /// Memory for `planner_open` to fill; no sound record.
    pub fn blank() -> Record {
        Record {
            total: 0,
            latency: 0,
            found: 0,
            ended: 0,
            starts: [0; 24],
            batch: Batch {
                n: 0,
                m: 0,
                edition: 0,
                jobs: [Job { ticks: 0, masks: [0; 16] }; 24],
                delays: [Delay { from: 0, to: 0, weight: 0 }; 128],
                windows: [Window::OPEN; 24],
                rests: [0; 16],
            },
            path: [Turn { clash: 65535, side: 0 }; 1024],
        }
    }
}

extern "C" {
    pub fn planner_version_5() -> u32;
    pub fn planner_open(file: *const u8, length: usize, record: *mut Record) -> u8;
    pub fn planner_run(record: *mut Record, budget: u32, starts: *mut u16, count: usize) -> Answer;
    pub fn planner_write_plan(record: *const Record, buffer: *mut u8, capacity: usize) -> Text;
    pub fn planner_write_batch(record: *const Record, buffer: *mut u8, capacity: usize) -> Text;
    pub fn planner_judge(file: *const u8, file_length: usize, text: *const u8, text_length: usize) -> u8;
}

// The layout that the header asserts too.
const _: () = assert!(size_of::<Delay>() == 4 && align_of::<Delay>() == 2);
const _: () = assert!(offset_of!(Delay, from) == 0 && offset_of!(Delay, to) == 1 && offset_of!(Delay, weight) == 2);
const _: () = assert!(size_of::<Job>() == 34 && align_of::<Job>() == 2);
const _: () = assert!(offset_of!(Job, ticks) == 0 && offset_of!(Job, masks) == 2);
const _: () = assert!(size_of::<Window>() == 6 && align_of::<Window>() == 2);
const _: () = assert!(offset_of!(Window, lined) == 0 && offset_of!(Window, earliest) == 2 && offset_of!(Window, latest) == 4);
const _: () = assert!(size_of::<Batch>() == 1492 && align_of::<Batch>() == 2);
const _: () = assert!(offset_of!(Batch, n) == 0 && offset_of!(Batch, m) == 1 && offset_of!(Batch, edition) == 2);
const _: () = assert!(offset_of!(Batch, jobs) == 4 && offset_of!(Batch, delays) == 820 && offset_of!(Batch, windows) == 1332);
const _: () = assert!(offset_of!(Batch, rests) == 1476);
const _: () = assert!(size_of::<Turn>() == 4 && align_of::<Turn>() == 2);
const _: () = assert!(offset_of!(Turn, clash) == 0 && offset_of!(Turn, side) == 2);
const _: () = assert!(size_of::<Record>() == 5644 && align_of::<Record>() == 4);
const _: () = assert!(offset_of!(Record, total) == 0 && offset_of!(Record, latency) == 4);
const _: () = assert!(offset_of!(Record, found) == 6 && offset_of!(Record, ended) == 7);
const _: () = assert!(offset_of!(Record, starts) == 8 && offset_of!(Record, batch) == 56 && offset_of!(Record, path) == 1548);
// No padding: each struct's fields fill it.
const _: () =
    assert!(size_of::<Delay>() == 2 + 2 && size_of::<Job>() == 2 + 2 * 16 && size_of::<Window>() == 3 * 2 && size_of::<Turn>() == 2 * 2);
const _: () = assert!(size_of::<Batch>() == 4 + 24 * size_of::<Job>() + 128 * size_of::<Delay>() + 24 * size_of::<Window>() + 16);
const _: () = assert!(size_of::<Record>() == 8 + 24 * 2 + size_of::<Batch>() + 1024 * size_of::<Turn>());
const _: () = assert!(size_of::<Answer>() == 8 && align_of::<Answer>() == 4);
const _: () = assert!(offset_of!(Answer, kind) == 0 && offset_of!(Answer, refusal) == 1);
const _: () = assert!(offset_of!(Answer, latency) == 2 && offset_of!(Answer, total) == 4);
const _: () = assert!(size_of::<Text>() == 2 * size_of::<usize>() && align_of::<Text>() == align_of::<usize>());
const _: () = assert!(offset_of!(Text, length) == 0 && offset_of!(Text, refusal) == size_of::<usize>());
