//! Opening a batch file of edition 01 or 02, with refusals 1 to 10, 20 and 21.

use crate::starts::{least_starts, Ends, Table};
use crate::{clashes, Batch, Delay, Job, Refusal, Search, Window, CLASHES, DELAYS, JOBS, STATIONS, TICKS};

/// Reads a batch file and gives a fresh search for it.
pub fn open(mut file: &[u8]) -> Result<Search, Refusal> {
    let mut batch = read_batch(&mut file)?;
    refuse_if(8, batch.edition == 1 && !file.is_empty())?;
    read_further(&mut batch, file)?;
    refuse_if(9, clashes(&batch).len() > CLASHES)?;
    let mut table = Table::new(batch.jobs().len());
    table.fill(batch.delays());
    refuse_if(10, least_starts(&table, &Ends::new(batch.windows())).is_none())?;
    Ok(Search::fresh(batch))
}

fn read_batch(file: &mut &[u8]) -> Result<Batch, Refusal> {
    let header = next_line(file)?;
    refuse_if(2, header[0] != 0xA0 || header.len() != 4)?;
    refuse_if(3, header[1] != 1 && header[1] != 2)?;
    let (edition, n, m) = (header[1], header[2], header[3]);
    refuse_if(4, n == 0 || n as usize > JOBS || m as usize > DELAYS)?;
    let (jobs, delays, windows) = ([Job::default(); JOBS], [Delay::default(); DELAYS], [Window::OPEN; JOBS]);
    let mut batch = Batch { n, m, edition, jobs, delays, windows, rests: [0; STATIONS] };
    for job in &mut batch.jobs[..n.into()] {
        *job = read_job(&next_line(file)?)?;
    }
    for delay in &mut batch.delays[..m.into()] {
        *delay = read_delay(&next_line(file)?, n)?;
    }
    Ok(batch)
}

fn read_job(line: &[u8]) -> Result<Job, Refusal> {
    refuse_if(2, line[0] != 0xA1 || line.len() < 2 || line.len() != 2 + 2 * line[1] as usize)?;
    refuse_if(4, line[1] == 0 || line[1] as usize > TICKS)?;
    let mut job = Job { ticks: line[1], ..Job::default() };
    for (mask, pair) in job.masks.iter_mut().zip(line[2..].chunks_exact(2)) {
        *mask = u16::from_be_bytes([pair[0], pair[1]]);
    }
    Ok(job)
}

fn read_delay(line: &[u8], n: u8) -> Result<Delay, Refusal> {
    refuse_if(2, line[0] != 0xA2 || line.len() != 5)?;
    let delay = Delay { from: line[1], to: line[2], weight: i16::from_be_bytes([line[3], line[4]]) };
    refuse_if(5, delay.from >= n || delay.to >= n || delay.from == delay.to)?;
    refuse_if(6, !(-1000..=1000).contains(&delay.weight))?;
    Ok(delay)
}

/// The lines after the delays: windows, jobs rising, and then rests, stations rising.
fn read_further(batch: &mut Batch, mut file: &[u8]) -> Result<(), Refusal> {
    let (mut kind, mut least) = (0xA3, 0);
    while !file.is_empty() {
        let line = next_line(&mut file)?;
        refuse_if(2, line[0] < kind)?;
        if line[0] > kind {
            (kind, least) = (line[0], 0);
        }
        let number = match kind {
            0xA3 => read_window(batch, &line, least)?,
            0xA4 => read_rest(batch, &line, least)?,
            _ => return Err(Refusal(2)),
        };
        least = number + 1;
    }
    Ok(())
}

/// Takes in the window of a job from `least` on, which it gives.
fn read_window(batch: &mut Batch, line: &[u8], least: u8) -> Result<u8, Refusal> {
    refuse_if(2, line.len() != 6)?;
    let (job, earliest, latest) = (line[1], u16::from_be_bytes([line[2], line[3]]), u16::from_be_bytes([line[4], line[5]]));
    refuse_if(20, job >= batch.n || job < least || earliest > 20_000 || earliest > latest)?;
    batch.windows[usize::from(job)] = Window { lined: true, earliest, latest };
    Ok(job)
}

/// Takes in the rest of a station from `least` on, which it gives.
fn read_rest(batch: &mut Batch, line: &[u8], least: u8) -> Result<u8, Refusal> {
    refuse_if(2, line.len() != 3)?;
    let (station, rest) = (line[1], line[2]);
    refuse_if(21, usize::from(station) >= STATIONS || station < least || !(1..=7).contains(&rest))?;
    batch.rests[usize::from(station)] = rest;
    Ok(station)
}

/// Takes the next line off the file and gives its bytes, at least one.
fn next_line(file: &mut &[u8]) -> Result<Vec<u8>, Refusal> {
    refuse_if(7, file.is_empty())?;
    let end = file.iter().position(|byte| *byte == b'\n').ok_or(Refusal(1))?;
    let digits = &file[..end];
    *file = &file[end + 1..];
    refuse_if(1, digits.is_empty() || digits.len() % 2 == 1)?;
    let bytes: Option<Vec<u8>> = digits.chunks_exact(2).map(|pair| Some(16 * digit(pair[0])? + digit(pair[1])?)).collect();
    bytes.ok_or(Refusal(1))
}

fn digit(byte: u8) -> Option<u8> {
    match byte {
        b'0'..=b'9' => Some(byte - b'0'),
        b'A'..=b'F' => Some(byte - b'A' + 10),
        _ => None,
    }
}

fn refuse_if(number: u8, condition: bool) -> Result<(), Refusal> {
    if condition {
        Err(Refusal(number))
    } else {
        Ok(())
    }
}
