//! Empty ticks and latency: those at the end of a job do not count, and a job that holds no station finishes at its start. A latency of 0 is a plan's.
mod common;

use common::Random;
use planner::{judge, Answer, Refusal, Search};

const C8: &[u8] = b"A0010100\nA10200010000\n";
const IDLE: &[u8] = b"A0010300\nA1010000\nA10200000000\nA1010000\n";

/// The answer to one run, and the starts of the plan that it ends in.
fn planned(file: &[u8], budget: u32) -> (Answer, Vec<u16>) {
    let mut search = Search::open(file).unwrap();
    let answer = search.run(budget).unwrap();
    (answer, search.plan().map_or(Vec::new(), |plan| plan.starts().to_vec()))
}

#[test]
fn last_ticks() {
    assert_eq!(planned(C8, 1), (Answer::Plan { latency: 1, total: 1 }, vec![0]));
    assert_eq!(judge(C8, b"B00101000100000001\nB1000000\n"), Ok(()));
    assert_eq!(judge(C8, b"B00101000200000001\nB1000000\n"), Err(Refusal::Invalid));
    assert_eq!(judge(C8, b"B00101FFFF00000001\nB100FFFE\n"), Ok(()));
    assert_eq!(judge(C8, b"B00101000000000001\nB100FFFF\n"), Err(Refusal::Invalid));
    // An empty tick before a held one counts.
    assert_eq!(planned(b"A0010100\nA10400000001000000FF\n", 1), (Answer::Plan { latency: 4, total: 1 }, vec![0]));
    // C3 with empty ticks in the place of station 1: the second job may be the later one.
    assert_eq!(planned(b"A0010200\nA1010001\nA103000100000000\n", 3), (Answer::Plan { latency: 2, total: 3 }, vec![0, 1]));
    // A job that holds nothing is the last to start.
    assert_eq!(planned(b"A0010201\nA1010001\nA103000000000000\nA200010005\n", 1), (Answer::Plan { latency: 5, total: 1 }, vec![0, 5]));
}

#[test]
fn latency_zero() {
    let mut search = Search::open(IDLE).unwrap();
    assert_eq!((search.run(0), search.best()), (Ok(Answer::Spent { total: 0 }), None));
    for budget in [1, 0, 5] {
        assert_eq!(search.run(budget), Ok(Answer::Plan { latency: 0, total: 1 }));
    }
    let plan = search.plan().expect("a plan of latency 0 is a plan");
    assert_eq!((plan.latency(), plan.starts(), search.best()), (0, &[0, 0, 0][..], Some(plan)));
    let text = search.plan_text().unwrap();
    assert_eq!(text, b"B00103000000000001\nB1000000\nB1010000\nB1020000\n");
    assert_eq!(judge(IDLE, &text), Ok(()));
    assert_eq!(judge(IDLE, b"B00103000100000001\nB1000000\nB1010000\nB1020000\n"), Err(Refusal::Invalid));
    assert_eq!(judge(IDLE, b"B00103FFFF00000001\nB1000000\nB101FFFF\nB1020000\n"), Ok(()));
    assert_eq!(judge(IDLE, b"B00103000000000001\nB1000000\nB101FFFF\nB1020000\n"), Err(Refusal::Invalid));
}

/// The same batch with empty ticks behind its tables: the same answers, starts and text.
#[test]
fn padded_tables() {
    let mut random = Random::new(9);
    let (mut plans, mut longer, mut idle) = (0, 0, 0);
    for k in 0..1200 {
        let batch = [Random::batch, Random::batch, Random::windowed, Random::rested][k / 300](&mut random, 6);
        let mut padded = batch.clone();
        padded.jobs.iter_mut().for_each(|masks| masks.resize(masks.len() + random.below(12) as usize, 0));
        let (Ok(mut search), Ok(mut other)) = (Search::open(&batch.file()), Search::open(&padded.file())) else {
            assert_eq!(Search::open(&batch.file()).err(), Search::open(&padded.file()).err());
            continue;
        };
        for budget in [1, 3, 500] {
            assert_eq!(other.run(budget), search.run(budget), "{padded:?}");
            assert_eq!((other.best(), other.plan_text()), (search.best(), search.plan_text()), "{padded:?}");
        }
        let Some(plan) = other.plan() else { continue };
        assert_eq!(padded.fault(plan.starts(), plan.latency()), None);
        let last = plan.starts().iter().zip(&padded.jobs).map(|(start, masks)| usize::from(*start) + masks.len()).max();
        (plans, longer, idle) = (plans + 1, longer + u32::from(last > Some(plan.latency().into())), idle + u32::from(plan.latency() == 0));
    }
    println!("{plans} plans, {longer} of them with a table that goes on longer, {idle} of latency 0");
    assert!(plans >= 200 && longer >= 150 && idle >= 3, "the batches are too much alike");
}
