// The planner of document 01 with the judge, the latency, edition 02 and the rests of document 02, once more: written from
// their text alone, to compare with. `independent plan` behaves as the program `plan`, `independent calls` as the check
// program. `independent clauses` takes the same calls and answers an R, P or B with its letter and the clauses of soundness
// that its record breaks.
use std::io::{BufRead, Read, Write};

const EMPTY: (u64, u64) = (65535, 0);

/// A delay or a turn's inequality: t_j - t_i >= w.
type Inequality = (usize, usize, i64);

/// A job's ends, and whether it has a line for them: 0 for none, anything else for one.
#[derive(Clone, Copy)]
struct Window {
    lined: u64,
    earliest: u64,
    latest: u64,
}

const NO_LINE: Window = Window { lined: 0, earliest: 0, latest: 65_535 };

#[derive(Clone)]
struct Record {
    n: usize,
    m: usize,
    edition: u64,
    ticks: [usize; 24],
    masks: [[u64; 16]; 24],
    delays: [Inequality; 128],
    windows: [Window; 24],
    rests: [u64; 16], // r of each station, 0 without a line
    path: [(u64, u64); 1024],
    best: Option<u64>,
    starts: [u64; 24],
    total: u64,
    ended: bool,
}

enum Answer {
    Spent(u64),
    Plan(u64, u64),
    NoPlan(u64),
    Refused(u64),
}

fn blank() -> Record {
    Record {
        n: 0,
        m: 0,
        edition: 1,
        ticks: [0; 24],
        masks: [[0; 16]; 24],
        delays: [(0, 0, 0); 128],
        windows: [NO_LINE; 24],
        rests: [0; 16],
        path: [EMPTY; 1024],
        best: None,
        starts: [0; 24],
        total: 0,
        ended: false,
    }
}

// ---- opening

fn digit(byte: u8) -> Option<u8> {
    match byte {
        b'0'..=b'9' => Some(byte - b'0'),
        b'A'..=b'F' => Some(byte - b'A' + 10),
        _ => None,
    }
}

fn hex(text: &[u8]) -> Option<Vec<u8>> {
    if text.len() % 2 == 1 {
        return None;
    }
    text.chunks(2).map(|pair| Some(digit(pair[0])? * 16 + digit(pair[1])?)).collect()
}

/// Takes the next line off the file: its bytes, or 7 or 1.
fn next_line(file: &mut &[u8]) -> Result<Vec<u8>, u64> {
    if file.is_empty() {
        return Err(7);
    }
    let end = file.iter().position(|byte| *byte == 0x0A).ok_or(1u64)?;
    let text = &file[..end];
    *file = &file[end + 1..];
    if text.is_empty() {
        return Err(1);
    }
    hex(text).ok_or(1)
}

fn refuse(number: u64, when: bool) -> Result<(), u64> {
    if when { Err(number) } else { Ok(()) }
}

fn open(mut file: &[u8]) -> Result<Record, u64> {
    let mut r = blank();
    let head = next_line(&mut file)?;
    refuse(2, head[0] != 0xA0 || head.len() != 4)?;
    refuse(3, head[1] != 1 && head[1] != 2)?;
    r.edition = head[1] as u64;
    r.n = head[2] as usize;
    r.m = head[3] as usize;
    refuse(4, r.n < 1 || r.n > 24 || r.m > 128)?;
    for job in 0..r.n {
        let line = next_line(&mut file)?;
        refuse(2, line[0] != 0xA1 || line.len() < 2 || line.len() != 2 + 2 * line[1] as usize)?;
        refuse(4, line[1] < 1 || line[1] > 16)?;
        r.ticks[job] = line[1] as usize;
        for tick in 0..r.ticks[job] {
            r.masks[job][tick] = line[2 + 2 * tick] as u64 * 256 + line[3 + 2 * tick] as u64;
        }
    }
    for delay in 0..r.m {
        let line = next_line(&mut file)?;
        refuse(2, line[0] != 0xA2 || line.len() != 5)?;
        let (i, j) = (line[1] as usize, line[2] as usize);
        refuse(5, i >= r.n || j >= r.n || i == j)?;
        let w = i16::from_be_bytes([line[3], line[4]]) as i64;
        refuse(6, w < -1000 || w > 1000)?;
        r.delays[delay] = (i, j, w);
    }
    if r.edition == 1 {
        refuse(8, !file.is_empty())?;
    }
    further_lines(&mut r, file)?;
    refuse(9, clashes(&r, &r.rests).len() > 1024)?;
    refuse(10, least_starts(&r.windows[..r.n], &r.delays[..r.m]).is_none())?;
    Ok(r)
}

/// The lines after the delays, of kinds that never fall, up to the end of the file.
fn further_lines(r: &mut Record, mut file: &[u8]) -> Result<(), u64> {
    let mut kind_before = 0;
    let (mut job_before, mut station_before) = (None, None);
    while !file.is_empty() {
        let line = next_line(&mut file)?;
        let kind = line[0];
        refuse(2, kind < kind_before)?;
        kind_before = kind;
        match kind {
            0xA3 => window_line(r, &line, &mut job_before)?,
            0xA4 => rest_line(r, &line, &mut station_before)?,
            _ => return Err(2),
        }
    }
    Ok(())
}

/// A3, job, earliest, latest.
fn window_line(r: &mut Record, line: &[u8], job_before: &mut Option<usize>) -> Result<(), u64> {
    refuse(2, line.len() != 6)?;
    let job = line[1] as usize;
    let (earliest, latest) = (number_of(&line[2..4]), number_of(&line[4..6]));
    refuse(20, job >= r.n || job_before.is_some_and(|before| job <= before))?;
    refuse(20, earliest > 20_000 || earliest > latest)?;
    *job_before = Some(job);
    r.windows[job] = Window { lined: 1, earliest, latest };
    Ok(())
}

/// A4, station, r.
fn rest_line(r: &mut Record, line: &[u8], station_before: &mut Option<usize>) -> Result<(), u64> {
    refuse(2, line.len() != 3)?;
    let (station, rest) = (line[1] as usize, line[2] as u64);
    refuse(21, station > 15 || station_before.is_some_and(|before| station <= before))?;
    refuse(21, rest < 1 || rest > 7)?;
    *station_before = Some(station);
    r.rests[station] = rest;
    Ok(())
}

// ---- latency, clashes, least starts, soundness

/// When a job that starts then finishes: its start plus the number of its last tick that is not empty plus 1. One that
/// holds no station finishes at its start.
fn finish(r: &Record, job: usize, start: u64) -> u64 {
    let last = (0..r.ticks[job]).rev().find(|tick| r.masks[job][*tick] != 0);
    last.map_or(start, |tick| start + tick as u64 + 1)
}

/// The largest finish of the jobs with these starts, 0 included.
fn latency(r: &Record, starts: impl Iterator<Item = u64>) -> u64 {
    starts.enumerate().map(|(job, start)| finish(r, job, start)).fold(0, u64::max)
}

/// A tick in which one job holds a station and one in which a different job holds it must be more than its r apart. So
/// jobs i and j clash at a distance d when a station is in mask a of i and in mask b of j, and a and b + d are no more
/// than its r apart. All such d, from -22 to 22, rising.
fn distances(r: &Record, rests: &[u64; 16], i: usize, j: usize) -> Vec<i64> {
    let mut met = [false; 45];
    for a in 0..r.ticks[i] {
        for b in 0..r.ticks[j] {
            let shared = r.masks[i][a] & r.masks[j][b];
            let stations = (0..16).filter(|station| shared >> station & 1 == 1);
            if let Some(most) = stations.map(|station| rests[station]).max() {
                let (middle, most) = (a as i64 - b as i64, most as i64);
                (middle - most..=middle + most).for_each(|d| met[(22 + d) as usize] = true);
            }
        }
    }
    (-22..=22).filter(|d| met[(22 + d) as usize]).collect()
}

fn clashes(r: &Record, rests: &[u64; 16]) -> Vec<Inequality> {
    let mut list = Vec::new();
    for i in 0..r.n {
        for j in i + 1..r.n {
            list.extend(distances(r, rests, i, j).into_iter().map(|d| (i, j, d)));
        }
    }
    list
}

/// The starts after the rounds, the latest ones not looked at; none if round n still changes something.
fn after_rounds(windows: &[Window], inequalities: &[Inequality]) -> Option<Vec<i64>> {
    let n = windows.len();
    let mut starts: Vec<i64> = windows.iter().map(|window| window.earliest as i64).collect();
    for round in 1..=n {
        let mut new = starts.clone();
        for &(i, j, w) in inequalities {
            new[j] = new[j].max(starts[i] + w);
        }
        if new == starts {
            break; // later rounds change nothing either
        }
        if round == n {
            return None;
        }
        starts = new;
    }
    Some(starts)
}

/// Whether no start passes its latest.
fn in_time(windows: &[Window], starts: &[i64]) -> bool {
    starts.iter().zip(windows).all(|(start, window)| *start <= window.latest as i64)
}

/// A window for each job.
fn least_starts(windows: &[Window], inequalities: &[Inequality]) -> Option<Vec<i64>> {
    after_rounds(windows, inequalities).filter(|starts| in_time(windows, starts))
}

/// What the clauses of soundness look at: as much of a record as its limits let be read.
struct Parts<'a> {
    record: &'a Record,
    ticks: &'a [usize],       // of the jobs; nothing if n is above 24
    delays: &'a [Inequality], // nothing if m is above 128
    windows: &'a [Window],    // of the jobs; nothing if n is above 24
    turns: Vec<(u64, u64)>,   // the places of the path that are not empty, wherever they stand
    readable: bool,           // tables and rests are: n is at most 24, every p at most 16 and every r at most 7
    clashes: Vec<Inequality>, // nothing if they are not
}

fn parts(r: &Record) -> Parts<'_> {
    let ticks = r.ticks.get(..r.n).unwrap_or(&[]);
    let readable = r.n <= 24 && ticks.iter().all(|p| *p <= 16) && r.rests.iter().all(|rest| *rest <= 7);
    Parts {
        record: r,
        ticks,
        delays: r.delays.get(..r.m).unwrap_or(&[]),
        windows: r.windows.get(..r.n).unwrap_or(&[]),
        turns: r.path.iter().copied().filter(|place| *place != EMPTY).collect(),
        readable,
        clashes: if readable { clashes(r, &r.rests) } else { Vec::new() },
    }
}

/// A clause of soundness: its name, and whether a record breaks it. Where it cannot be asked it is not broken.
type Clause = (&'static str, fn(&Parts) -> bool);

/// All of them, in the order of 01's sentence and then of 02's. A record is sound if it breaks none.
const CLAUSES: &[Clause] = &[
    ("n below 1", |it| it.record.n < 1),
    ("n above 24", |it| it.record.n > 24),
    ("m above 128", |it| it.record.m > 128),
    ("p below 1", |it| it.ticks.iter().any(|p| *p < 1)),
    ("p above 16", |it| it.ticks.iter().any(|p| *p > 16)),
    ("from of n or above", |it| it.delays.iter().any(|delay| delay.0 >= it.record.n)),
    ("to of n or above", |it| it.delays.iter().any(|delay| delay.1 >= it.record.n)),
    ("from = to", |it| it.delays.iter().any(|delay| delay.0 == delay.1)),
    ("w below -1,000", |it| it.delays.iter().any(|delay| delay.2 < -1000)),
    ("w above 1,000", |it| it.delays.iter().any(|delay| delay.2 > 1000)),
    ("D above 1,024", too_many_alone),
    ("D above 1,024 by rests", |it| it.clashes.len() > 1024 && !too_many_alone(it)),
    ("delays that cannot be met", no_starts),
    ("a clash that is not listed", unlisted),
    ("a side above 1", |it| it.turns.iter().any(|turn| turn.1 > 1)),
    ("one clash twice", twice),
    ("a turn after an empty place", |it| turns(it.record) < it.turns.len()),
    ("a turn while ended", |it| it.record.ended && !it.turns.is_empty()),
    ("total above 100,000,000", |it| it.record.total > 100_000_000),
    ("a start above 43,000", late_start),
    ("latency above 43,016", |it| it.record.best.is_some_and(|latency| latency > 43_016)),
    ("edition below 1", |it| it.record.edition < 1),
    ("edition above 2", |it| it.record.edition > 2),
    ("a line in edition 1", |it| it.record.edition == 1 && it.windows.iter().any(|window| window.lined != 0)),
    ("earliest above 20,000", |it| it.windows.iter().any(|window| window.lined != 0 && window.earliest > 20_000)),
    ("earliest above latest", |it| it.windows.iter().any(|window| window.lined != 0 && window.earliest > window.latest)),
    ("an earliest without a line", |it| it.windows.iter().any(|window| window.lined == 0 && window.earliest != 0)),
    ("a latest without a line", |it| it.windows.iter().any(|window| window.lined == 0 && window.latest != 65_535)),
    ("ends that cannot be met", passed_ends),
    ("a rest above 7", |it| it.record.rests.iter().any(|rest| *rest > 7)),
    ("a rest in edition 1", |it| it.record.edition == 1 && it.record.rests.iter().any(|rest| *rest != 0)),
];

/// The starts after the rounds by the delays, from the earliest starts on; nothing where a delay names no job of the batch.
fn rounds_of(it: &Parts) -> Option<Option<Vec<i64>>> {
    let n = it.record.n;
    let named = n <= 24 && it.delays.iter().all(|&(i, j, _)| i < n && j < n);
    named.then(|| after_rounds(it.windows, it.delays))
}

/// Asked where every delay names jobs of the batch.
fn no_starts(it: &Parts) -> bool {
    rounds_of(it).is_some_and(|starts| starts.is_none())
}

/// Asked where every delay names jobs of the batch, the delays can be met, and no earliest start is above the latest.
fn passed_ends(it: &Parts) -> bool {
    let starts = rounds_of(it).flatten();
    let ordered = it.windows.iter().all(|window| window.earliest <= window.latest);
    ordered && starts.is_some_and(|starts| !in_time(it.windows, &starts))
}

/// D is above 1,024 whatever the rests are. Asked where the clashes are known.
fn too_many_alone(it: &Parts) -> bool {
    it.clashes.len() > 1024 && clashes(it.record, &[0; 16]).len() > 1024
}

/// Asked where the clashes are known.
fn unlisted(it: &Parts) -> bool {
    it.readable && it.turns.iter().any(|turn| turn.0 >= it.clashes.len() as u64)
}

/// Some turn is on the clash of an earlier one.
fn twice(it: &Parts) -> bool {
    let again = |k: usize| it.turns[..k].iter().any(|earlier| earlier.0 == it.turns[k].0);
    (0..it.turns.len()).any(again)
}

/// Asked where there is a best; starts past n do not count.
fn late_start(it: &Parts) -> bool {
    it.record.best.is_some() && it.record.starts.iter().take(it.record.n).any(|start| *start > 43_000)
}

/// The clashes of the record's batch if the record is sound.
fn sound(r: &Record) -> Option<Vec<Inequality>> {
    let it = parts(r);
    if CLAUSES.iter().any(|(_, broken)| broken(&it)) { None } else { Some(it.clashes) }
}

/// The names of the clauses that a record breaks; `sound` for none.
fn broken(r: &Record) -> String {
    let it = parts(r);
    let names: Vec<&str> = CLAUSES.iter().filter(|(_, broken)| broken(&it)).map(|(name, _)| *name).collect();
    if names.is_empty() { "sound".to_string() } else { names.join("; ") }
}

/// The number of places before the first empty one.
fn turns(r: &Record) -> usize {
    r.path.iter().position(|place| *place == EMPTY).unwrap_or(1024)
}

// ---- the search

fn go_back(r: &mut Record) {
    let mut length = turns(r);
    while length > 0 && r.path[length - 1].1 == 1 {
        length -= 1;
        r.path[length] = EMPTY;
    }
    if length == 0 {
        r.ended = true;
    } else {
        r.path[length - 1].1 = 1;
    }
}

fn node(r: &mut Record, list: &[Inequality]) {
    r.total += 1;
    let length = turns(r);
    let mut inequalities = r.delays[..r.m].to_vec();
    for &(clash, side) in &r.path[..length] {
        let (i, j, d) = list[clash as usize];
        inequalities.push(if side == 0 { (i, j, d + 1) } else { (j, i, 1 - d) });
    }
    let Some(t) = least_starts(&r.windows[..r.n], &inequalities) else {
        return go_back(r);
    };
    let latency = latency(r, t.iter().map(|start| *start as u64));
    if r.best.is_some_and(|best| latency >= best) {
        return go_back(r);
    }
    if let Some(first) = list.iter().position(|&(i, j, d)| t[j] - t[i] == d) {
        r.path[length] = (first as u64, 0);
        return;
    }
    r.best = Some(latency);
    r.starts = [0; 24];
    for i in 0..r.n {
        r.starts[i] = t[i] as u64;
    }
    go_back(r);
}

fn run(r: &mut Record, budget: u64, list: &mut [u64]) -> Answer {
    if budget > 1_000_000 {
        return Answer::Refused(11);
    }
    let Some(clashes) = sound(r) else {
        return Answer::Refused(12);
    };
    if list.len() < r.n {
        return Answer::Refused(13);
    }
    if !r.ended && r.total + budget > 100_000_000 {
        return Answer::Refused(14);
    }
    let mut allowed = budget;
    while !r.ended && allowed > 0 {
        node(r, &clashes);
        allowed -= 1;
    }
    match (r.ended, r.best) {
        (false, _) => Answer::Spent(r.total),
        (true, None) => Answer::NoPlan(r.total),
        (true, Some(latency)) => {
            list[..r.n].copy_from_slice(&r.starts[..r.n]);
            Answer::Plan(latency, r.total)
        }
    }
}

// ---- writing

fn plan_text(r: &Record) -> Result<String, u64> {
    refuse(12, sound(r).is_none())?;
    refuse(15, !r.ended)?;
    let Some(latency) = r.best else {
        return Ok(format!("B2{:08X}\n", r.total));
    };
    let mut text = format!("B001{:02X}{:04X}{:08X}\n", r.n, latency, r.total);
    for i in 0..r.n {
        text += &format!("B1{:02X}{:04X}\n", i, r.starts[i]);
    }
    Ok(text)
}

fn batch_text(r: &Record) -> Result<String, u64> {
    refuse(12, sound(r).is_none())?;
    let mut text = format!("A0{:02X}{:02X}{:02X}\n", r.edition, r.n, r.m);
    for i in 0..r.n {
        text += &format!("A1{:02X}", r.ticks[i]);
        for mask in &r.masks[i][..r.ticks[i]] {
            text += &format!("{:04X}", mask);
        }
        text += "\n";
    }
    for &(i, j, w) in &r.delays[..r.m] {
        text += &format!("A2{:02X}{:02X}{:04X}\n", i, j, w as i16 as u16);
    }
    for (job, window) in r.windows[..r.n].iter().enumerate().filter(|(_, window)| window.lined != 0) {
        text += &format!("A3{:02X}{:04X}{:04X}\n", job, window.earliest, window.latest);
    }
    for (station, rest) in r.rests.iter().enumerate().filter(|(_, rest)| **rest != 0) {
        text += &format!("A4{:02X}{:02X}\n", station, rest);
    }
    Ok(text)
}

// ---- judging a plan text

/// The numbers of a plan text, whatever they are.
struct PlanText {
    n: u64,
    latency: u64,
    jobs: Vec<u64>,   // that the job lines name
    starts: Vec<u64>, // that they give them
}

fn number_of(bytes: &[u8]) -> u64 {
    bytes.iter().fold(0, |number, byte| number * 256 + *byte as u64)
}

/// Reads a text of one B0 line with 01 and then only B1 lines, each of its length; none for any other text.
fn plan_lines(mut text: &[u8]) -> Option<PlanText> {
    let head = next_line(&mut text).ok()?;
    if head[0] != 0xB0 || head.len() != 9 || head[1] != 1 {
        return None;
    }
    let (n, latency) = (number_of(&head[2..3]), number_of(&head[3..5]));
    let mut plan = PlanText { n, latency, jobs: vec![], starts: vec![] };
    while !text.is_empty() {
        let line = next_line(&mut text).ok()?;
        if line[0] != 0xB1 || line.len() != 4 {
            return None;
        }
        plan.jobs.push(number_of(&line[1..2]));
        plan.starts.push(number_of(&line[2..4]));
    }
    Some(plan)
}

/// A job that holds a station in a tick.
struct Held {
    job: usize,
    station: usize,
    tick: u64,
}

/// All that a job holds that starts in this tick.
fn held(r: &Record, job: usize, start: u64) -> Vec<Held> {
    let mut list = Vec::new();
    for a in 0..r.ticks[job] {
        let stations = (0..16).filter(|station| r.masks[job][a] >> station & 1 == 1);
        list.extend(stations.map(|station| Held { job, station, tick: start + a as u64 }));
    }
    list
}

/// Any two ticks in which different jobs hold one station are more than its r apart.
fn rested(r: &Record, starts: &[u64]) -> bool {
    let all: Vec<Held> = (0..r.n).flat_map(|job| held(r, job, starts[job])).collect();
    let apart = |x: &Held, y: &Held| x.tick.abs_diff(y.tick) > r.rests[x.station];
    all.iter().all(|x| all.iter().all(|y| x.station != y.station || x.job == y.job || apart(x, y)))
}

/// Every delay is kept, every start is within its ends, and every station has its rest between two jobs.
fn valid(r: &Record, starts: &[u64]) -> bool {
    let kept = |&(i, j, w): &Inequality| starts[j] as i64 - starts[i] as i64 >= w;
    let within = |(start, window): (&u64, &Window)| (window.earliest..=window.latest).contains(start);
    r.delays[..r.m].iter().all(kept) && starts.iter().zip(&r.windows).all(within) && rested(r, starts)
}

fn judge(file: &[u8], text: &[u8]) -> Result<(), u64> {
    let r = open(file)?;
    let plan = plan_lines(text).ok_or(17u64)?;
    refuse(18, plan.n != r.n as u64 || !plan.jobs.iter().copied().eq(0..r.n as u64))?;
    refuse(19, !valid(&r, &plan.starts) || plan.latency != latency(&r, plan.starts.iter().copied()))
}

// ---- the program `plan`

fn plan(file: &[u8]) -> String {
    let answer = || -> Result<String, u64> {
        let mut r = open(&file[..file.len().min(65_536)])?;
        let mut list = [0; 24];
        loop {
            match run(&mut r, 1_000_000, &mut list) {
                Answer::Spent(_) => (),
                Answer::Refused(number) => return Err(number),
                _ => return plan_text(&r),
            }
        }
    };
    answer().unwrap_or_else(|number| format!("BF{:02X}\n", number))
}

// ---- the check program

fn shown(r: &Record) -> String {
    let mut numbers = vec![r.n as u64, r.m as u64, r.edition];
    for i in 0..24 {
        numbers.push(r.ticks[i] as u64);
        numbers.extend(r.masks[i]);
    }
    for (i, j, w) in r.delays {
        numbers.extend([i as u64, j as u64, (w + 32768) as u64]);
    }
    for window in r.windows {
        numbers.extend([window.lined, window.earliest, window.latest]);
    }
    numbers.extend(r.rests);
    for (clash, side) in r.path {
        numbers.extend([clash, side]);
    }
    numbers.push(r.best.map_or(0, |latency| latency + 1));
    numbers.extend(r.starts);
    numbers.extend([r.total, r.ended as u64]);
    let sum = numbers.iter().fold(7u64, |x, v| (x * 31 + v) % 4_294_967_296);
    let best = r.best.map_or("-".to_string(), |latency| latency.to_string());
    let mut text = format!("D {} {} {} {} {} :", r.n, r.m, r.total, r.ended as u64, best);
    r.starts.iter().for_each(|start| text += &format!(" {}", start));
    text += " :";
    r.path[..turns(r)].iter().for_each(|(clash, side)| text += &format!(" {}.{}", clash, side));
    text + &format!(" : {}", sum)
}

/// Sets one place; false where an argument is out of range.
fn set(r: &mut Record, field: u64, a: usize, b: usize, value: u64) -> bool {
    let most = match field {
        0 | 1 | 4 | 5 | 17 => 255,
        2 | 3 | 6 | 7 | 8 | 10 | 13..=16 => 65_535,
        9 => 65_536,
        11 => 4_294_967_295,
        12 => 1,
        _ => return false,
    };
    let places = match field {
        2 | 3 | 10 | 14..=16 => 24,
        4 | 5 | 6 => 128,
        7 | 8 => 1024,
        17 => 16,
        _ => usize::MAX,
    };
    if value > most || a >= places || (field == 3 && b >= 16) {
        return false;
    }
    match field {
        0 => r.n = value as usize,
        1 => r.m = value as usize,
        2 => r.ticks[a] = value as usize,
        3 => r.masks[a][b] = value,
        4 => r.delays[a].0 = value as usize,
        5 => r.delays[a].1 = value as usize,
        6 => r.delays[a].2 = value as i64 - 32_768,
        7 => r.path[a].0 = value,
        8 => r.path[a].1 = value,
        9 => r.best = if value == 65_536 { None } else { Some(value) },
        10 => r.starts[a] = value,
        11 => r.total = value,
        12 => r.ended = value == 1,
        13 => r.edition = value,
        14 => r.windows[a].lined = value,
        15 => r.windows[a].earliest = value,
        16 => r.windows[a].latest = value,
        _ => r.rests[a] = value,
    }
    true
}

fn written(letter: &str, text: Result<String, u64>, length: usize) -> String {
    let mut buffer = vec![b'.'; length];
    let fitting = text.and_then(|text| if text.len() > length { Err(16) } else { Ok(text) });
    let answer = match fitting {
        Ok(text) => {
            buffer[..text.len()].copy_from_slice(text.as_bytes());
            format!("W {}", text.len())
        }
        Err(number) => format!("F {}", number),
    };
    let buffer = String::from_utf8(buffer).unwrap().replace('\n', "/");
    format!("{} {} : {}", letter, answer, buffer)
}

fn number(word: &str) -> Option<u64> {
    let digits = !word.is_empty() && word.bytes().all(|byte| byte.is_ascii_digit());
    word.parse().ok().filter(|value| digits && *value <= 4_294_967_295)
}

/// The answer to a J line with these two words.
fn judged(line: &str, file: &str, text: &str) -> Option<String> {
    let (file, text) = (hex(file.as_bytes())?, hex(text.as_bytes())?);
    if line.len() > 131_079 || file.len() > 65_536 || text.len() > 65_536 {
        return None;
    }
    Some(format!("J {}", judge(&file, &text).err().unwrap_or(0)))
}

fn call(r: &mut Record, line: &str) -> Option<String> {
    let words: Vec<&str> = line.split(' ').collect();
    if let ["J", file, text] = words[..] {
        return judged(line, file, text);
    }
    if words[0] == "O" && words.len() <= 2 {
        let file = hex(words.get(1).unwrap_or(&"").as_bytes())?;
        let opened = open(&file);
        let answer = opened.as_ref().err().copied().unwrap_or(0);
        *r = opened.unwrap_or_else(|_| blank());
        return Some(format!("O {}", answer));
    }
    let numbers: Vec<u64> = words[1..].iter().map(|word| number(word)).collect::<Option<_>>()?;
    match (words[0], &numbers[..]) {
        ("R", &[budget, length]) if length <= 32 => {
            let mut list: Vec<u64> = (0..length).map(|i| 60_000 + i).collect();
            let mut text = match run(r, budget, &mut list) {
                Answer::Spent(total) => format!("R S {} :", total),
                Answer::Plan(latency, total) => format!("R P {} {} :", latency, total),
                Answer::NoPlan(total) => format!("R N {} :", total),
                Answer::Refused(number) => format!("R F {} :", number),
            };
            list.iter().for_each(|place| text += &format!(" {}", place));
            Some(text)
        }
        ("P", &[length]) if length <= 4096 => Some(written("P", plan_text(r), length as usize)),
        ("B", &[length]) if length <= 4096 => Some(written("B", batch_text(r), length as usize)),
        ("S", &[field, a, b, value]) => {
            let done = set(r, field, a as usize, b as usize, value);
            Some(if done { "S" } else { "S ?" }.to_string())
        }
        ("D", &[]) => Some(shown(r)),
        _ => None,
    }
}

/// A call that asks soundness is answered with what its record breaks, every other as above.
fn call_of_clauses(r: &mut Record, line: &str) -> Option<String> {
    if !line.starts_with(['R', 'P', 'B']) {
        return call(r, line);
    }
    let names = broken(r);
    call(r, line).map(|_| format!("{} {}", &line[..1], names))
}

fn main() {
    let mode = std::env::args().nth(1).unwrap_or_default();
    let mut out = std::io::BufWriter::new(std::io::stdout());
    if mode == "plan" {
        let mut file = Vec::new();
        std::io::stdin().read_to_end(&mut file).unwrap();
        out.write_all(plan(&file).as_bytes()).unwrap();
    } else if mode == "calls" || mode == "clauses" {
        let mut record = blank();
        let answered = if mode == "calls" { call } else { call_of_clauses };
        for line in std::io::stdin().lock().lines() {
            let answer = answered(&mut record, &line.unwrap()).unwrap_or("?".to_string());
            writeln!(out, "{}", answer).unwrap();
        }
    } else {
        eprintln!("usage: independent plan | calls | clauses");
        std::process::exit(2);
    }
}
