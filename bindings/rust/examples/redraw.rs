//! A kiosk's redraw loop around the planner: each redraw, every 16 ms, gives it at most about 4 ms, in a budget of nodes
//! chosen from the measured rate.
//!
//! `redraw FILE` draws its progress on one line of standard error and prints the plan text on standard output. It waits
//! for the next redraw only where standard error is a terminal. A search that would pass its limit of nodes leaves the
//! best plan found, which is told on standard error. Exit status: 0 with a text, 1 if the file or a run is refused or the
//! text cannot be written, 2 with wrong usage or a file that cannot be read.
use planner::{Answer, Refusal, Search, BUDGET, TOTAL};
use std::io::{stderr, stdout, IsTerminal, Write};
use std::process::ExitCode;
use std::thread::sleep;
use std::time::{Duration, Instant};

const FRAME: Duration = Duration::from_millis(16);
const SHARE: Duration = Duration::from_millis(4);
/// The first budget, before anything is measured.
const FIRST: u32 = 64;

/// The next frame's budget: as many nodes as the last rate fits into the share. It at most doubles, since later nodes
/// may be slower.
fn next_budget(search: &Search, visited: u32, took: Duration) -> u32 {
    let fitting = f64::from(visited) * SHARE.as_secs_f64() / took.as_secs_f64().max(1e-9);
    let bound = BUDGET.min(TOTAL - search.total()).min(visited.saturating_mul(2));
    (fitting as u32).min(bound).max(1)
}

/// One line: the frame, the nodes so far, the best plan so far, and the planner's time in this frame.
fn draw(frame: u32, search: &Search, took: Duration) {
    let best = match search.best() {
        Some(plan) => format!("best latency {}", plan.latency()),
        None if search.has_ended() => "no plan".to_string(),
        None => "no plan yet".to_string(),
    };
    eprint!("\rframe {frame}: {} nodes, {best}, {:.1} ms   ", search.total(), took.as_secs_f64() * 1000.0);
}

/// Frame after frame until the search has ended, or is refused because it would pass its limit of nodes.
fn redraw(search: &mut Search) -> Result<(), Refusal> {
    let (mut frame, mut budget) = (0, FIRST);
    loop {
        let begin = Instant::now();
        let answer = search.run(budget);
        let took = begin.elapsed();
        frame += 1;
        draw(frame, search, took);
        let Ok(Answer::Spent { .. }) = answer else {
            eprintln!();
            return answer.map(drop);
        };
        budget = next_budget(search, budget, took);
        if stderr().is_terminal() {
            sleep(FRAME.saturating_sub(begin.elapsed()));
        }
    }
}

/// The best plan of a search that was not brought to its end: valid, and perhaps not the shortest.
fn tell_best(search: &Search) {
    if let Some(plan) = search.best() {
        eprintln!("redraw: best plan so far, latency {}: starts {:?}", plan.latency(), plan.starts());
    }
}

fn plan(file: &[u8]) -> Result<Vec<u8>, Refusal> {
    let mut search = Search::open(file)?;
    redraw(&mut search).inspect_err(|_| tell_best(&search))?;
    search.plan_text()
}

fn main() -> ExitCode {
    let Some(name) = std::env::args_os().nth(1).filter(|_| std::env::args_os().count() == 2) else {
        eprintln!("usage: redraw FILE");
        return ExitCode::from(2);
    };
    let file = match std::fs::read(&name) {
        Ok(file) => file,
        Err(error) => {
            eprintln!("redraw: '{}' cannot be read: {error}", name.to_string_lossy());
            return ExitCode::from(2);
        }
    };
    match plan(&file) {
        Ok(text) => match stdout().write_all(&text).and_then(|()| stdout().flush()) {
            Ok(()) => ExitCode::SUCCESS,
            Err(_) => ExitCode::FAILURE,
        },
        Err(refusal) => {
            eprintln!("redraw: refused, number {}: {refusal}", refusal.number());
            ExitCode::FAILURE
        }
    }
}
