//! A search is plain data: it can be cloned, sent to another thread, and shown, and so can a plan and a job.
use planner::{Answer, Search};

const C3: &[u8] = b"A0010200\nA1010001\nA103000100020002\n";

#[test]
fn clones_go_apart() {
    let mut search = Search::open(C3).unwrap();
    assert_eq!(search.run(2), Ok(Answer::Spent { total: 2 }));
    let mut clone = search.clone();
    assert_eq!(clone.run(1), Ok(Answer::Plan { latency: 3, total: 3 }));
    assert_eq!((search.total(), search.has_ended(), search.plan()), (2, false, None));
    let best = search.best().expect("a first plan after two nodes");
    assert_eq!((best.latency(), best.starts()), (4, &[0, 1][..]));
    assert_eq!(search.run(1), Ok(Answer::Plan { latency: 3, total: 3 }));
    assert!(search == clone);
}

#[test]
fn goes_to_other_threads() {
    let search = Search::open(C3).unwrap();
    let threads: Vec<_> = (1..=4)
        .map(|budget| {
            let mut mine = search.clone();
            std::thread::spawn(move || {
                while let Ok(Answer::Spent { .. }) = mine.run(budget) {}
                mine.plan_text()
            })
        })
        .collect();
    assert_eq!(threads.len(), 4);
    for thread in threads {
        assert_eq!(thread.join().unwrap().unwrap(), b"B00102000300000003\nB1000001\nB1010000\n");
    }
}

#[test]
fn shows_where_it_stands() {
    let mut search = Search::open(C3).unwrap();
    assert_eq!(search.run(1), Ok(Answer::Spent { total: 1 }));
    assert_eq!(format!("{search:?}"), "Search { jobs: 2, total: 1, has_ended: false, best: None, .. }");
    assert_eq!(search.run(2), Ok(Answer::Plan { latency: 3, total: 3 }));
    assert_eq!(format!("{search:?}"), "Search { jobs: 2, total: 3, has_ended: true, best: Some(Plan { latency: 3, starts: [1, 0] }), .. }");
}

/// A plan shows the starts of its jobs, a job the masks of its ticks, and neither the places that are not used.
#[test]
fn shows_what_is_used() {
    let mut search = Search::open(b"A0010201\nA10200018000\nA1010002\nA20001FC18\n").unwrap();
    assert_eq!(search.run(1), Ok(Answer::Plan { latency: 2, total: 1 }));
    assert_eq!(format!("{:?}", search.plan().unwrap()), "Plan { latency: 2, starts: [0, 0] }");
    assert_eq!(format!("{:?}", search.jobs()), "[Job { masks: [1, 32768] }, Job { masks: [2] }]");
    assert_eq!(format!("{:04X?}", search.jobs()[0]), "Job { masks: [0001, 8000] }");
    assert_eq!(format!("{:?}", search.delays()), "[Delay { from: 0, to: 1, weight: -1000 }]");
    let search = Search::open(b"A0020200\nA1010001\nA1010002\nA30100050009\n").unwrap();
    let due = "[Window { has_line: false, earliest: 0, latest: 65535 }, Window { has_line: true, earliest: 5, latest: 9 }]";
    assert_eq!(format!("{:?}", search.windows()), due);
    let search = Search::open(b"A0020100\nA1010001\nA40302\n").unwrap();
    assert_eq!(format!("{:?}", search.rests().collect::<Vec<_>>()), "[Rest { station: 3, ticks: 2 }]");
}
