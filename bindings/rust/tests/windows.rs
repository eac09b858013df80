//! Windows: earliest and latest starts of edition 02 decide plans, are written back, and are judged.
mod common;

use common::{planned, repository, Batch, Random};
use planner::{judge, Refusal, Search};

/// Plans with starts up to this are looked at one by one.
const MOST: u16 = 25;

/// The example, its windows one by one left out, and none of them: the starts are others each time.
#[test]
fn wedding() {
    let file = std::fs::read(repository("examples/wedding-windows.batch")).unwrap();
    let batch = Batch::of(&file);
    assert_eq!(planned(&file), Ok(Some((7, vec![1, 4, 0, 3]))));
    assert_eq!(planned(&Batch { windows: None, ..batch.clone() }.file()), Ok(Some((6, vec![0, 2, 2, 4]))));
    let windows = batch.windows.clone().unwrap();
    assert_eq!(windows, [(0, 1, 65535), (1, 3, 65535), (3, 0, 3)]);
    for left_out in &windows {
        let others = windows.iter().copied().filter(|window| window != left_out).collect();
        let starts = planned(&Batch { windows: Some(others), ..batch.clone() }.file()).unwrap().unwrap().1;
        assert_ne!(starts, [1, 4, 0, 3], "{left_out:?} decides");
    }
    assert_eq!(planned(&std::fs::read(repository("examples/too-late.batch")).unwrap()), Ok(None));
}

/// Lines that say nothing, and none at all.
#[test]
fn without_effect() {
    let bare: &[u8] = b"A0020200\nA1010001\nA103000100020002\n";
    assert_eq!(planned(bare), Ok(Some((3, vec![1, 0]))));
    let said = [bare, b"A3000000FFFF\n", b"A3010000FFFF\n"].concat();
    assert_eq!(planned(&said), Ok(Some((3, vec![1, 0]))));
    let (search, other) = (Search::open(bare).unwrap(), Search::open(&said).unwrap());
    assert_eq!(search.windows().iter().filter(|window| window.has_line()).count(), 0);
    assert_eq!(other.windows().iter().filter(|window| window.has_line()).count(), 2);
    assert!(search != other && search.edition() == 2);
}

/// Starts at both ends of a window pass, those outside do not.
#[test]
fn judged() {
    let file = b"A0020100\nA1010001\nA30000030005\n";
    for start in 0..10u16 {
        let text = format!("B00101{:04X}00000000\nB100{start:04X}\n", start + 1);
        let due = if (3..=5).contains(&start) { Ok(()) } else { Err(Refusal::Invalid) };
        assert_eq!(judge(file, text.as_bytes()), due, "start {start}");
    }
}

/// Small batches beside all their plans: with windows, and without.
#[test]
fn random_windows() {
    let mut random = Random::new(10);
    let (mut longer, mut none, mut refused, mut alike) = (0, 0, 0, 0);
    for _ in 0..2400 {
        let batch = random.windowed(3);
        let (with, without) = (planned(&batch.file()), planned(&Batch { windows: None, ..batch.clone() }.file()));
        match (&with, &without) {
            (Ok(Some((latency, starts))), Ok(Some((shorter, others)))) => {
                assert_eq!(batch.fault(starts, *latency), None);
                assert!(*latency > MOST || batch.shortest(MOST) == Some(*latency), "{batch:?}");
                (longer, alike) = (longer + u32::from(latency > shorter), alike + u32::from(starts == others));
                assert!(latency >= shorter);
            }
            (Ok(None), _) => {
                assert_eq!(batch.shortest(MOST), None, "{batch:?}");
                none += u32::from(matches!(without, Ok(Some(_))));
            }
            (Err(Refusal::Delays), _) => {
                assert_eq!(batch.shortest(MOST), None, "{batch:?}");
                refused += u32::from(without.is_ok());
            }
            other => panic!("{other:?} for {batch:?}"),
        }
    }
    println!("windows: {longer} longer plans, {alike} the same, {none} times no plan, {refused} times 10");
    assert!(longer >= 300 && alike >= 300 && none >= 12 && refused >= 40, "the batches are too much alike");
}
