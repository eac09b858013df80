//! Every refusal by its number, its words and a call that gives it. No safe call gives 12 and 13, and 14 takes 100,000,000 nodes: 12 and 14 are
//! tested beside the record itself, in src/lib.rs. Those of judging are in judge.rs.
mod common;

use common::{repository, Batch, Random};
use planner::{Answer, Refusal, Search, BATCH_TEXT, BUDGET, PLAN_TEXT};
use std::collections::BTreeSet;

const C3: &[u8] = b"A0010200\nA1010001\nA103000100020002\n";

#[test]
fn numbers() {
    let numbers: Vec<u8> = Refusal::ALL.iter().map(|refusal| refusal.number()).collect();
    assert_eq!(numbers, (1..=21).collect::<Vec<u8>>());
    for refusal in Refusal::ALL {
        assert_eq!(Refusal::from_number(refusal.number()), Some(refusal));
    }
    assert_eq!((Refusal::from_number(0), Refusal::from_number(22), Refusal::from_number(255)), (None, None, None));
}

/// The words are those of the README's table of refusals.
#[test]
fn words() {
    let readme = std::fs::read_to_string(repository("README.md")).unwrap();
    let table = readme.split("## The refusals").nth(1).expect("the README has a table of refusals");
    let mut compared = 0;
    for row in table.lines().take_while(|line| !line.starts_with("## ")) {
        let cells: Vec<&str> = row.split('|').map(str::trim).collect();
        let Some(Ok(number)) = cells.get(1).map(|cell| cell.parse()) else { continue };
        let refusal = Refusal::from_number(number).expect("a number of 1 to 21");
        assert_eq!(refusal.to_string(), cells[2]);
        let error: Box<dyn std::error::Error> = Box::new(refusal);
        assert_eq!(error.to_string(), cells[2]);
        compared += 1;
    }
    assert_eq!(compared, 21);
}

#[test]
fn opening() {
    let crowd = Batch { jobs: vec![vec![1; 16]; 9], ..Batch::default() }.file();
    let rows: [(&[u8], Refusal, u8); 38] = [
        (b"A0010\n", Refusal::Line, 1),
        (b"A0010100\nA10100\n", Refusal::Frame, 2),
        (b"A0030100\nA1010001\n", Refusal::Edition, 3),
        (b"A0010000\n", Refusal::Count, 4),
        (b"A0010201\nA1010001\nA1010002\nA200000001\n", Refusal::Job, 5),
        (b"A0010201\nA1010001\nA1010002\nA2000103E9\n", Refusal::Weight, 6),
        (b"", Refusal::Missing, 7),
        (b"A0010100\nA1010001\n\n", Refusal::Extra, 8),
        (&crowd, Refusal::Clashes, 9),
        (b"A0010202\nA1010001\nA1010002\nA200010001\nA201000000\n", Refusal::Delays, 10),
        (b"A0020100\nA1010001\n\n", Refusal::Line, 1),
        (b"A0020100\nA1010001\na30000000001\n", Refusal::Line, 1),
        (b"A0020100\nA1010001\nA30000000001", Refusal::Line, 1),
        (b"A0020100\nA1010001\nA300000000\n", Refusal::Frame, 2),
        (b"A0020100\nA1010001\nA3000000000100\n", Refusal::Frame, 2),
        (b"A0020100\nA1010001\nA50001\n", Refusal::Frame, 2),
        (b"A0020200\nA1010001\nA1010002\nA200010001\n", Refusal::Frame, 2),
        (b"A0020200\nA1010001\nA1010002\nA30000000001\nA200010001\n", Refusal::Frame, 2),
        (b"A0010100\nA1010001\nA30000000001\n", Refusal::Extra, 8),
        (b"A0020201\nA1010001\nA1010002\nA200010005\nA30100000004\n", Refusal::Delays, 10),
        (b"A0020100\nA1010001\nA30100000001\n", Refusal::Window, 20),
        (b"A0020100\nA1010001\nA30000000001\nA30000000001\n", Refusal::Window, 20),
        (b"A0020200\nA1010001\nA1010002\nA30100000001\nA30000000001\n", Refusal::Window, 20),
        (b"A0020100\nA1010001\nA3004E21FFFF\n", Refusal::Window, 20),
        (b"A0020100\nA1010001\nA30000020001\n", Refusal::Window, 20),
        (b"A0020100\nA1010001\nA30000020001\nG\n", Refusal::Window, 20),
        (b"A0020100\nA1010001\na40001\n", Refusal::Line, 1),
        (b"A0020100\nA1010001\nA400\n", Refusal::Frame, 2),
        (b"A0020100\nA1010001\nA4000001\n", Refusal::Frame, 2),
        (b"A0020100\nA1010001\nA40001\nA30000000001\n", Refusal::Frame, 2),
        (b"A0010100\nA1010001\nA40001\n", Refusal::Extra, 8),
        (b"A0020100\nA1010001\nA30000020001\nA41001\n", Refusal::Window, 20),
        (b"A0020100\nA1010001\nA41001\n", Refusal::Rest, 21),
        (b"A0020100\nA1010001\nA40001\nA40001\n", Refusal::Rest, 21),
        (b"A0020100\nA1010001\nA40101\nA40001\n", Refusal::Rest, 21),
        (b"A0020100\nA1010001\nA40000\n", Refusal::Rest, 21),
        (b"A0020100\nA1010001\nA40008\n", Refusal::Rest, 21),
        (b"A0020100\nA1010001\nA40000\nG\n", Refusal::Rest, 21),
    ];
    for (file, refusal, number) in rows {
        assert_eq!(Search::open(file), Err(refusal));
        assert_eq!(refusal.number(), number);
    }
}

#[test]
fn running() {
    let mut search = Search::open(C3).unwrap();
    let fresh = search.clone();
    assert_eq!(search.run(BUDGET + 1), Err(Refusal::Budget));
    assert_eq!(search.run(u32::MAX), Err(Refusal::Budget));
    assert!(search == fresh, "a refused run changes nothing");
    assert_eq!(search.run(BUDGET), Ok(Answer::Plan { latency: 3, total: 3 }));
    assert_eq!(search.run(BUDGET + 1), Err(Refusal::Budget));
}

#[test]
fn writing() {
    let mut search = Search::open(C3).unwrap();
    let mut buffer = [b'.'; 40];
    assert_eq!(search.write_plan(&mut buffer), Err(Refusal::Unended));
    assert_eq!(search.plan_text(), Err(Refusal::Unended));
    assert_eq!(search.write_batch(&mut buffer[..34]), Err(Refusal::Buffer));
    assert_eq!(search.write_batch(&mut []), Err(Refusal::Buffer));
    assert_eq!(search.run(3), Ok(Answer::Plan { latency: 3, total: 3 }));
    assert_eq!(search.write_plan(&mut buffer[..36]), Err(Refusal::Buffer));
    assert_eq!(search.write_plan(&mut []), Err(Refusal::Buffer));
    assert_eq!(buffer, [b'.'; 40], "a refused text leaves the buffer");
    assert_eq!(search.write_plan(&mut buffer), Ok(37));
    assert_eq!(&buffer, b"B00102000300000003\nB1000001\nB1010000\n...");
    assert_eq!(search.write_batch(&mut buffer[..35]), Ok(35));
    assert_eq!(&buffer[..35], C3);
}

/// The longest texts fit the buffers that the crate names, and nothing shorter.
#[test]
fn longest_texts() {
    let windows = (0..24).map(|job| (job, 0, 65535)).collect();
    let rests = (0..16).map(|station| (station, 7)).collect();
    let batch = Batch { jobs: vec![vec![0; 16]; 24], delays: vec![(0, 1, -1000); 128], windows: Some(windows), rests };
    let mut search = Search::open(&batch.file()).unwrap();
    assert_eq!(search.run(1), Ok(Answer::Plan { latency: 0, total: 1 }));
    assert_eq!(search.plan_text().unwrap().len(), PLAN_TEXT);
    assert_eq!(search.batch_text().unwrap().len(), BATCH_TEXT);
    assert_eq!(search.write_plan(&mut [0; PLAN_TEXT - 1]), Err(Refusal::Buffer));
    assert_eq!(search.write_batch(&mut [0; BATCH_TEXT - 1]), Err(Refusal::Buffer));
}

/// Files with a byte changed, left out or put in: accepted and written back, or refused with 1 to 10, 20 or 21.
#[test]
fn damaged_files() {
    let mut random = Random::new(4);
    let (mut seen, mut accepted) = (BTreeSet::new(), 0);
    for k in 0..12000 {
        let mut file = [Random::batch, Random::windowed, Random::rested][k / 4000](&mut random, 5).file();
        let place = random.below(file.len() as u64) as usize;
        let byte = b"0123456789ABCDEF\n\rag\0"[random.below(21) as usize];
        match random.below(3) {
            0 => file[place] = byte,
            1 => file.insert(place, byte),
            _ => drop(file.remove(place)),
        }
        match Search::open(&file) {
            Ok(search) => {
                assert_eq!(search.batch_text().unwrap(), file);
                accepted += 1;
            }
            Err(refusal) => _ = seen.insert(refusal.number()),
        }
    }
    println!("{accepted} accepted; refusals seen: {seen:?}");
    let further = [20, 21].iter().all(|number| seen.remove(number));
    assert!(accepted >= 300 && further && seen.len() >= 7 && seen.iter().all(|number| (1..=10).contains(number)));
}
