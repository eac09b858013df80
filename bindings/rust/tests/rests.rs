//! Rests: stations of edition 02 that two jobs hold only in ticks far enough apart decide plans, are written back, and are judged.
mod common;

use common::{planned, repository, Batch, Random};
use planner::{judge, Refusal, Rest, Search};

/// The example, with every rest of its laminator and without one.
#[test]
fn laminator() {
    let file = std::fs::read(repository("examples/laminator.batch")).unwrap();
    let batch = Batch::of(&file);
    assert!(Search::open(&file).unwrap().rests().eq([Rest { station: 3, ticks: 2 }]));
    assert_eq!(planned(&file), Ok(Some((7, vec![0, 4, 1]))));
    assert_eq!(planned(&Batch { rests: vec![], ..batch.clone() }.file()), Ok(Some((5, vec![0, 2, 1]))));
    for ticks in 1..=7 {
        let rests = vec![(3, ticks)];
        assert_eq!(planned(&Batch { rests, ..batch.clone() }.file()).unwrap().unwrap().0, 5 + ticks, "{ticks} ticks");
    }
    let others = vec![(0, 7), (2, 7), (4, 7), (15, 7)]; // that no job holds
    assert_eq!(planned(&Batch { rests: others, ..batch }.file()), Ok(Some((5, vec![0, 2, 1]))));
}

/// Two jobs of one tick: held ticks as far apart as the rest do not pass, a tick further they do. Without a rest that is 0 ticks.
#[test]
fn judged() {
    for ticks in 0..=7u16 {
        let rests = if ticks == 0 { vec![] } else { vec![(0, ticks)] };
        let file = Batch { jobs: vec![vec![1], vec![1]], windows: Some(vec![]), rests, ..Batch::default() }.file();
        for (first, second) in (0..20u16).flat_map(|first| (0..20).map(move |second| (first, second))) {
            let text = format!("B00102{:04X}00000000\nB100{first:04X}\nB101{second:04X}\n", first.max(second) + 1);
            let due = if first.abs_diff(second) > ticks { Ok(()) } else { Err(Refusal::Invalid) };
            assert_eq!(judge(&file, text.as_bytes()), due, "starts {first} and {second}, rest {ticks}");
        }
    }
}

/// A job's own ticks need no rest, however many and however close they are.
#[test]
fn own_ticks() {
    for masks in [vec![1, 1], vec![1, 0, 1], vec![0xFFFF; 16], vec![0, 1, 0, 0, 1]] {
        let rests: Vec<(usize, u16)> = (0..16).map(|station| (station, 7)).collect();
        let batch = Batch { jobs: vec![masks.clone()], windows: Some(vec![]), rests, ..Batch::default() };
        assert_eq!(planned(&batch.file()), Ok(Some((masks.len() as u16, vec![0]))));
    }
}

/// The farthest distances that clash, -22 and 22, and the next ones.
#[test]
fn farthest() {
    let (mut last, mut first) = (vec![0; 16], vec![0; 16]);
    (last[15], first[0]) = (1, 1);
    for (jobs, sign) in [(vec![last.clone(), first.clone()], 1), (vec![first, last], -1)] {
        for distance in -30..=30i16 {
            let delays = vec![(0, 1, distance), (1, 0, -distance)];
            let batch = Batch { jobs: jobs.clone(), delays, windows: Some(vec![]), rests: vec![(0, 7)] };
            let starts = vec![(-distance).max(0) as u16, distance.max(0) as u16];
            let due = if (8..=22).contains(&(sign * distance)) { None } else { Some(starts) };
            assert_eq!(planned(&batch.file()).map(|plan| plan.map(|(_, starts)| starts)), Ok(due), "distance {distance}");
        }
    }
}

/// The clashes that rests bring: 1,024 open, one more does not.
#[test]
fn most_clashes() {
    let batch = |last: usize, ticks: u16| {
        let mut jobs = vec![vec![1]; 12];
        jobs.extend([vec![2; 10], vec![2; last]]);
        Batch { jobs, windows: Some(vec![]), rests: vec![(0, 7), (1, ticks)], ..Batch::default() }
    };
    assert!(Search::open(&batch(11, 7).file()).is_ok());
    assert_eq!(Search::open(&batch(12, 7).file()), Err(Refusal::Clashes));
    assert!(Search::open(&batch(12, 6).file()).is_ok());
}

/// Small batches beside all their plans: with rests, and without.
#[test]
fn random_rests() {
    let mut random = Random::new(11);
    let (mut longer, mut none, mut refused, mut alike) = (0, 0, 0, 0);
    for _ in 0..2400 {
        let batch = random.rested(3);
        let (with, without) = (planned(&batch.file()), planned(&Batch { rests: vec![], ..batch.clone() }.file()));
        match (&with, &without) {
            (Ok(Some((latency, starts))), Ok(Some((shorter, others)))) => {
                assert_eq!(batch.fault(starts, *latency), None);
                assert!(*latency > 30 || batch.shortest(*latency) == Some(*latency), "{batch:?}");
                (longer, alike) = (longer + u32::from(latency > shorter), alike + u32::from(starts == others));
                assert!(latency >= shorter);
            }
            (Ok(None), _) => {
                assert_eq!(batch.shortest(20), None, "{batch:?}");
                none += u32::from(matches!(without, Ok(Some(_))));
            }
            (Err(Refusal::Delays), Err(Refusal::Delays)) => refused += 1,
            other => panic!("{other:?} for {batch:?}"),
        }
    }
    println!("rests: {longer} longer plans, {alike} the same, {none} times no plan, {refused} times 10");
    assert!(longer >= 300 && alike >= 300 && none >= 12 && refused >= 40, "the batches are too much alike");
}
