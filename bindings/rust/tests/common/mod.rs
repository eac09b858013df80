//! What the tests share: a batch in plain numbers with its file, a check of plans tick by tick, and random batches from a fixed seed.
#![allow(dead_code)]
use planner::{Answer, Refusal, Search};
use std::fs;
use std::path::PathBuf;

/// A file of the repository, named from its root.
pub fn repository(name: &str) -> PathBuf {
    PathBuf::from(env!("CARGO_MANIFEST_DIR")).join("../..").join(name)
}

/// Every batch file of a folder by its name, in order.
pub fn batch_files(folder: &str) -> Vec<(String, Vec<u8>)> {
    let paths = fs::read_dir(repository(folder)).expect("a folder of batch files").map(|entry| entry.unwrap().path());
    let batches = paths.filter(|path| path.extension().is_some_and(|end| end == "batch"));
    let mut files: Vec<_> =
        batches.map(|path| (path.file_name().unwrap().to_string_lossy().into_owned(), fs::read(&path).unwrap())).collect();
    files.sort();
    files
}

/// What a whole search comes to: its starts and latency, or no plan; or its refusal.
pub fn planned(file: &[u8]) -> Result<Option<(u16, Vec<u16>)>, Refusal> {
    let mut search = Search::open(file)?;
    while let Answer::Spent { .. } = search.run(50)? {}
    assert_eq!(search.batch_text().unwrap(), file, "the batch text is the file");
    Ok(search.plan().map(|plan| (plan.latency(), plan.starts().to_vec())))
}

/// Jobs as lists of masks, delays as (from, to, weight), windows as (job, earliest, latest), rests as (station, ticks). Windows are none in edition
/// 01, and rests then empty.
#[derive(Clone, Debug, Default, PartialEq, Eq)]
pub struct Batch {
    pub jobs: Vec<Vec<u16>>,
    pub delays: Vec<(usize, usize, i16)>,
    pub windows: Option<Vec<(usize, u16, u16)>>,
    pub rests: Vec<(usize, u16)>,
}

impl Batch {
    /// The batch file by the format's text.
    pub fn file(&self) -> Vec<u8> {
        let edition = if self.windows.is_some() { 2 } else { 1 };
        let mut text = format!("A0{edition:02X}{:02X}{:02X}\n", self.jobs.len(), self.delays.len());
        for masks in &self.jobs {
            let digits: String = masks.iter().map(|mask| format!("{mask:04X}")).collect();
            text += &format!("A1{:02X}{digits}\n", masks.len());
        }
        for (from, to, weight) in &self.delays {
            text += &format!("A2{from:02X}{to:02X}{weight:04X}\n");
        }
        for (job, earliest, latest) in self.windows.iter().flatten() {
            text += &format!("A3{job:02X}{earliest:04X}{latest:04X}\n");
        }
        for (station, ticks) in &self.rests {
            text += &format!("A4{station:02X}{ticks:02X}\n");
        }
        text.into_bytes()
    }

    /// Reads a file that the planner has accepted.
    pub fn of(file: &[u8]) -> Batch {
        let text = std::str::from_utf8(file).expect("an accepted file is plain text");
        let number = |line: &str, from: usize, to: usize| u16::from_str_radix(&line[from..to], 16).unwrap();
        let mut batch = Batch::default();
        for line in text.lines() {
            match &line[..2] {
                "A0" => batch.windows = (&line[2..4] == "02").then(Vec::new),
                "A3" => batch.windows.as_mut().unwrap().push((number(line, 2, 4).into(), number(line, 4, 8), number(line, 8, 12))),
                "A4" => batch.rests.push((number(line, 2, 4).into(), number(line, 4, 6))),
                "A1" => batch.jobs.push((4..line.len()).step_by(4).map(|k| number(line, k, k + 4)).collect()),
                "A2" => batch.delays.push((number(line, 2, 4).into(), number(line, 4, 6).into(), number(line, 6, 10) as i16)),
                _ => (),
            }
        }
        batch
    }

    /// The latency of these starts: one past the last tick in which a station is held; a job that holds none counts with its start.
    pub fn latency(&self, starts: &[u16]) -> usize {
        let finish = |(start, masks): (&u16, &Vec<u16>)| {
            let held = masks.iter().rposition(|mask| *mask != 0).map_or(0, |tick| tick + 1);
            usize::from(*start) + held
        };
        starts.iter().zip(&self.jobs).map(finish).max().unwrap_or(0)
    }

    /// Every tick in which a job holds a station, as (job, tick).
    fn held(&self, station: usize, starts: &[u16]) -> Vec<(usize, u32)> {
        let mut list = Vec::new();
        for (job, masks) in self.jobs.iter().enumerate() {
            let ticks = (0..).zip(masks).filter(|(_, mask)| *mask >> station & 1 == 1);
            list.extend(ticks.map(|(tick, _)| (job, u32::from(starts[job]) + tick)));
        }
        list
    }

    /// A station and two ticks in which different jobs hold it and that are not more than its rest apart.
    fn too_close(&self, starts: &[u16]) -> Option<(usize, u32, u32)> {
        for station in 0..16 {
            let rest = self.rests.iter().find(|rest| rest.0 == station).map_or(0, |rest| u32::from(rest.1));
            let held = self.held(station, starts);
            for (k, &(one, x)) in held.iter().enumerate() {
                if let Some((_, y)) = held[..k].iter().find(|(other, y)| *other != one && x.abs_diff(*y) <= rest) {
                    return Some((station, x, *y));
                }
            }
        }
        None
    }

    /// What is wrong with a plan: a delay not kept, a start outside its window, a station held by two jobs in one tick or in ticks no further apart
    /// than its rest, another latency.
    pub fn fault(&self, starts: &[u16], latency: u16) -> Option<String> {
        if starts.len() != self.jobs.len() {
            return Some(format!("{} starts for {} jobs", starts.len(), self.jobs.len()));
        }
        for &(from, to, weight) in &self.delays {
            if i32::from(starts[to]) - i32::from(starts[from]) < i32::from(weight) {
                return Some(format!("the delay from {from} to {to} by {weight} is not kept"));
            }
        }
        for &(job, earliest, latest) in self.windows.iter().flatten() {
            if !(earliest..=latest).contains(&starts[job]) {
                return Some(format!("job {job} starts at {}, outside {earliest} to {latest}", starts[job]));
            }
        }
        if let Some((station, x, y)) = self.too_close(starts) {
            return Some(format!("station {station} is held by two jobs in ticks {x} and {y}"));
        }
        let right = self.latency(starts);
        (right != usize::from(latency)).then(|| format!("the latency is {right}, not {latency}"))
    }

    /// The smallest latency of all valid plans with starts up to `most`; none where there is none.
    pub fn shortest(&self, most: u16) -> Option<u16> {
        let n = self.jobs.len();
        let (mut starts, mut best) = (vec![0u16; n], None);
        loop {
            let latency = self.latency(&starts) as u16;
            if best.map_or(true, |best| latency < best) && self.fault(&starts, latency).is_none() {
                best = Some(latency);
            }
            let Some(job) = (0..n).find(|job| starts[*job] < most) else { return best };
            starts[..job].fill(0);
            starts[job] += 1;
        }
    }
}

/// Random numbers from a fixed seed (xorshift64*).
pub struct Random(u64);

impl Random {
    pub fn new(seed: u64) -> Random {
        Random(seed * 2 + 1)
    }

    /// A number below `bound`.
    pub fn below(&mut self, bound: u64) -> u64 {
        self.0 ^= self.0 >> 12;
        self.0 ^= self.0 << 25;
        self.0 ^= self.0 >> 27;
        (self.0.wrapping_mul(0x2545_F491_4F6C_DD1D) >> 33) % bound
    }

    /// A batch of 1 to `most` jobs of 1 to 5 ticks on 3 stations, with up to 6 short delays either way.
    pub fn batch(&mut self, most: u64) -> Batch {
        let n = 1 + self.below(most);
        let jobs = (0..n).map(|_| (0..=self.below(5)).map(|_| [0, 1, 2, 4, 5][self.below(5) as usize]).collect()).collect();
        let count = if n > 1 { self.below(7) } else { 0 };
        let delays = (0..count).map(|_| {
            let from = self.below(n);
            let to = (from + 1 + self.below(n - 1)) % n;
            (from as usize, to as usize, self.below(9) as i16 - 5)
        });
        Batch { delays: delays.collect(), jobs, ..Batch::default() }
    }

    /// Such a batch with windows for some jobs or all, of edition 02.
    pub fn windowed(&mut self, most: u64) -> Batch {
        let batch = self.batch(most);
        let chosen: Vec<usize> = (0..batch.jobs.len()).filter(|_| self.below(2) == 0).collect();
        let windows = chosen.into_iter().map(|job| {
            let earliest = [0, self.below(4), self.below(12)][self.below(3) as usize];
            let latest = [65535, earliest + self.below(4), earliest + self.below(12)][self.below(3) as usize];
            (job, earliest as u16, latest as u16)
        });
        Batch { windows: Some(windows.collect()), ..batch }
    }

    /// Such a batch, with windows or without, and with rests of some stations, of edition 02.
    pub fn rested(&mut self, most: u64) -> Batch {
        let batch = if self.below(2) == 0 { self.windowed(most) } else { Batch { windows: Some(Vec::new()), ..self.batch(most) } };
        let chosen: Vec<usize> = (0..16).filter(|station| self.below(if *station < 3 { 2 } else { 8 }) == 0).collect();
        let rests = chosen.into_iter().map(|station| (station, [1, 1 + self.below(2), 1 + self.below(7)][self.below(3) as usize] as u16));
        Batch { rests: rests.collect(), ..batch }
    }
}
