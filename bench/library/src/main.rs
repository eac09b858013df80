//! Measures the planner's library beside the same search in plain Rust (bench/plain).
//!
//! `measure nodes FILE..`: nodes a second on each batch. `measure calls FILE..`: the cost of a run with budget 0. Each prints a line a measurement, fields
//! apart by tabs, a head line first. `measure optimum FILE`: plans one batch through the library and prints latency and nodes ('none' where no plan exists).

mod contender;
mod timing;

use contender::{Contender, State};
use std::hint::black_box;
use std::path::Path;
use std::process::ExitCode;
use std::{env, fs};
use timing::{compare, Comparison};

/// At most so many nodes of a search are measured: the first ones.
const NODES: u32 = 100_000;
/// So often a search is looked at to learn its depth.
const SAMPLES: u32 = 256;

fn main() -> ExitCode {
    let words: Vec<String> = env::args().skip(1).collect();
    let files = words.get(1..).unwrap_or_default();
    let done = match words.first().map(String::as_str) {
        Some("nodes") if !files.is_empty() => measure_nodes(files),
        Some("calls") if !files.is_empty() => measure_calls(files),
        Some("optimum") if files.len() == 1 => print_optimum(&files[0]),
        _ => Err("usage: measure nodes FILE.. | measure calls FILE.. | measure optimum FILE".to_string()),
    };
    match done {
        Ok(()) => ExitCode::SUCCESS,
        Err(words) => {
            eprintln!("measure: {words}");
            ExitCode::from(2)
        }
    }
}

/// A batch opened by both contenders, and what its first nodes look like.
struct Subject {
    name: String,
    library: planner::Search,
    plain: plain::Search,
    /// Nodes of the search, up to NODES, and whether it ends with them.
    nodes: u32,
    whole: bool,
    /// The number of turns on the path: the median of the samples, and the largest with the node at which it was seen.
    typical: usize,
    deepest: (usize, u32),
}

fn read(path: &str) -> Result<(String, Vec<u8>), String> {
    let file = fs::read(path).map_err(|error| format!("{path}: {error}"))?;
    let name = Path::new(path).file_stem().unwrap_or_default().to_string_lossy().into_owned();
    Ok((name, file))
}

fn subject(path: &str) -> Result<Subject, String> {
    let (name, file) = read(path)?;
    let library: planner::Search = Contender::opened(&file).map_err(|number| format!("{path}: the library refuses it with {number}"))?;
    let plain: plain::Search = Contender::opened(&file).map_err(|number| format!("{path}: the plain search refuses it with {number}"))?;
    let mut whole = plain.clone();
    whole.advance(NODES);
    let nodes = whole.total;
    let mut depths = sampled_depths(&plain, nodes);
    let deepest = depths.iter().copied().max().unwrap_or_default();
    depths.sort_unstable();
    let typical = depths.get(depths.len() / 2).map_or(0, |sample| sample.0);
    Ok(Subject { name, library, plain, nodes, whole: whole.ended, typical, deepest })
}

/// Depth and total after each of up to SAMPLES equal parts of the nodes.
fn sampled_depths(fresh: &plain::Search, nodes: u32) -> Vec<(usize, u32)> {
    let part = nodes.div_ceil(SAMPLES);
    let mut search = fresh.clone();
    let mut samples = Vec::new();
    while search.total + part < nodes {
        search.advance(part);
        samples.push((search.depth(), search.total));
    }
    samples
}

/// Whole searches, or the first NODES nodes of one, again and again from a copy of the fresh record; at least one.
fn searches<C: Contender>(fresh: &C, nodes: u32, times: u32) -> State {
    let search = || {
        let mut search = fresh.clone();
        search.advance(nodes);
        black_box(search)
    };
    (1..times).for_each(|_| drop(search()));
    search().state()
}

/// Runs with budget 0.
fn idle_runs<C: Contender>(record: &mut C, times: u32) -> State {
    for _ in 0..times {
        record.advance(0);
    }
    record.state()
}

fn measure_nodes(files: &[String]) -> Result<(), String> {
    println!("batch\tn\tm\tD\tnodes\twhole\tdepth\tdeepest\tlibrary\tplain\tratio");
    for path in files {
        let s = subject(path)?;
        let found = compare(|times| searches(&s.library, s.nodes, times), |times| searches(&s.plain, s.nodes, times));
        let Comparison { library, plain } = found.map_err(|words| format!("{path}: {words}"))?;
        let (n, m, d) = (s.plain.batch.n, s.plain.batch.m, plain::clashes(&s.plain.batch).len());
        let (whole, typical, deepest) = (u8::from(s.whole), s.typical, s.deepest.0);
        let rate = |seconds: f64| f64::from(s.nodes) / seconds;
        println!(
            "{}\t{n}\t{m}\t{d}\t{}\t{whole}\t{typical}\t{deepest}\t{:.0}\t{:.0}\t{:.3}",
            s.name,
            s.nodes,
            rate(library),
            rate(plain),
            plain / library
        );
    }
    Ok(())
}

fn measure_calls(files: &[String]) -> Result<(), String> {
    println!("batch\trecord\tdepth\tlibrary\tplain\tratio");
    for path in files {
        let s = subject(path)?;
        for (record, (depth, total)) in [("fresh", (0, 0)), ("deep", s.deepest)] {
            let (mut library, mut plain) = (s.library.clone(), s.plain.clone());
            library.advance(total);
            plain.advance(total);
            let found = compare(|times| idle_runs(&mut library, times), |times| idle_runs(&mut plain, times));
            let Comparison { library, plain } = found.map_err(|words| format!("{path}: {words}"))?;
            let nanoseconds = |seconds: f64| seconds * 1e9;
            println!("{}\t{record}\t{depth}\t{:.0}\t{:.0}\t{:.3}", s.name, nanoseconds(library), nanoseconds(plain), plain / library);
        }
    }
    Ok(())
}

fn print_optimum(path: &str) -> Result<(), String> {
    let (_, file) = read(path)?;
    let mut search = planner::Search::open(&file).map_err(|refusal| format!("{path}: {refusal}"))?;
    loop {
        match search.run(planner::BUDGET).map_err(|refusal| format!("{path}: {refusal}"))? {
            planner::Answer::Spent { .. } => (),
            planner::Answer::Plan { latency, total } => {
                println!("{latency} {total}");
                return Ok(());
            }
            planner::Answer::NoPlan { total } => {
                println!("none {total}");
                return Ok(());
            }
        }
    }
}
