//! The jobs, delays, windows and rests of a search are those of its file, place by place, from the opening to the end.
mod common;

use common::{batch_files, Batch, Random};
use planner::{Answer, Search};

/// The windows that have a line; none are there in edition 01. Those without a line say nothing.
fn windows(search: &Search) -> Option<Vec<(usize, u16, u16)>> {
    let all = search.windows().iter().map(|window| (window.has_line(), window.earliest(), window.latest())).enumerate();
    let (lined, free): (Vec<_>, Vec<_>) = all.partition(|(_, window)| window.0);
    assert!(search.windows().len() == search.jobs().len() && free.iter().all(|(_, window)| *window == (false, 0, 65535)));
    let lined: Vec<(usize, u16, u16)> = lined.into_iter().map(|(job, (_, earliest, latest))| (job, earliest, latest)).collect();
    assert!(matches!(search.edition(), 1 | 2) && (search.edition() == 2 || lined.is_empty()));
    (search.edition() == 2).then_some(lined)
}

/// The rests, stations rising; none are there in edition 01.
fn rests(search: &Search) -> Vec<(usize, u16)> {
    let rests: Vec<(usize, u16)> = search.rests().map(|rest| (rest.station.into(), rest.ticks.into())).collect();
    assert!(rests.windows(2).all(|two| two[0].0 < two[1].0) && rests.iter().all(|rest| rest.0 < 16 && (1..=7).contains(&rest.1)));
    assert!(search.edition() == 2 || rests.is_empty());
    rests
}

/// The batch as the search gives it, in the tests' own numbers.
fn given(search: &Search) -> Batch {
    Batch {
        jobs: search.jobs().iter().map(|job| job.masks().to_vec()).collect(),
        delays: search.delays().iter().map(|delay| (delay.from.into(), delay.to.into(), delay.weight)).collect(),
        windows: windows(search),
        rests: rests(search),
    }
}

/// Compares the fresh search, a clone, and the search after some runs with the batch. How many jobs and delays there were.
fn compared(batch: &Batch, mut search: Search) -> (usize, usize) {
    assert_eq!(given(&search), *batch);
    assert!(search.jobs().iter().all(|job| job.ticks() == job.masks().len()));
    let clone = search.clone();
    for budget in [0, 1, 10, 1000] {
        assert!(search.run(budget).is_ok());
        assert_eq!(given(&search), *batch);
    }
    assert_eq!((clone.jobs(), clone.delays(), clone.windows()), (search.jobs(), search.delays(), search.windows()));
    assert!(clone.rests().eq(search.rests()));
    (batch.jobs.len(), batch.delays.len())
}

#[test]
fn files_of_the_repository() {
    let (mut files, mut jobs, mut delays) = (0, 0, 0);
    for (name, file) in batch_files("examples").into_iter().chain(batch_files("bench/batches")) {
        let Ok(search) = Search::open(&file) else { continue };
        let (n, m) = compared(&Batch::of(&file), search);
        println!("{name}: {n} jobs, {m} delays");
        (files, jobs, delays) = (files + 1, jobs + n, delays + m);
    }
    println!("{files} files with {jobs} jobs and {delays} delays");
    assert!(files >= 10 && jobs >= 100 && delays >= 100, "the files are not there");
}

#[test]
fn random_batches() {
    let mut random = Random::new(5);
    let (mut jobs, mut delays, mut windows, mut rests) = (0, 0, 0, 0);
    for k in 0..3000 {
        let batch = [Random::batch, Random::windowed, Random::rested][k / 1000](&mut random, 24);
        if let Ok(search) = Search::open(&batch.file()) {
            let (n, m) = compared(&batch, search);
            (jobs, delays, rests) = (jobs + n, delays + m, rests + batch.rests.len());
            windows += batch.windows.map_or(0, |windows| windows.len());
        }
    }
    println!("{jobs} jobs, {delays} delays, {windows} windows and {rests} rests");
    assert!(jobs >= 3000 && delays >= 300 && windows >= 800 && rests >= 500, "too few batches were accepted");
}

/// Every place of the record is filled: 24 jobs of 16 ticks, 128 delays, weights at both ends, 24 windows, 16 rests.
#[test]
fn largest_batch() {
    let mut jobs = vec![vec![0; 16]; 24];
    jobs[23] = (0..16).map(|tick| 0xFFFF - 0x0F0F * tick).collect();
    let delays = (0..128).map(|k| (k % 24, (k + 1) % 24, if k % 24 < 23 { k as i16 - 127 } else { -1000 })).collect();
    let windows = (0..24).map(|job| (job, 20_000 - 800 * job as u16, 65_535 - job as u16)).collect();
    let rests = (0..16).map(|station| (station, 1 + station as u16 % 7)).collect();
    let batch = Batch { jobs, delays, windows: Some(windows), rests };
    let search = Search::open(&batch.file()).unwrap();
    assert_eq!(compared(&batch, search), (24, 128));
}

/// The least batch, and no delays.
#[test]
fn smallest_batch() {
    let mut search = Search::open(b"A0010100\nA1018001\n").unwrap();
    assert_eq!((search.jobs().len(), search.jobs()[0].ticks(), search.jobs()[0].masks()), (1, 1, &[0x8001][..]));
    assert!(search.delays().is_empty());
    assert_eq!((search.edition(), search.windows().len(), search.windows()[0].has_line()), (1, 1, false));
    assert_eq!(search.rests().count(), 0);
    assert_eq!(search.run(1), Ok(Answer::Plan { latency: 1, total: 1 }));
}
