//! Judging: the plan texts of searches pass with their files, and every other text is answered as a reading of its own, here, has it.
mod common;

use common::{batch_files, Batch, Random};
use planner::{judge, Answer, Refusal, Search};
use std::collections::BTreeMap;

const C3: &[u8] = b"A0010200\nA1010001\nA103000100020002\n";
const C3_PLAN: &[u8] = b"B00102000300000003\nB1000001\nB1010000\n";

/// The plan text of these numbers.
fn text_of(starts: &[u16], latency: u16, total: u32) -> Vec<u8> {
    let mut text = format!("B001{:02X}{latency:04X}{total:08X}\n", starts.len());
    for (job, start) in starts.iter().enumerate() {
        text += &format!("B1{job:02X}{start:04X}\n");
    }
    text.into_bytes()
}

/// The bytes of a line without its 0A; none unless it is upper-case hexadecimal, two digits a byte.
fn frame(line: &[u8]) -> Option<Vec<u8>> {
    let digits = line.iter().all(|byte| matches!(byte, b'0'..=b'9' | b'A'..=b'F'));
    let text = std::str::from_utf8(line).ok().filter(|text| digits && !text.is_empty() && text.len() % 2 == 0)?;
    (0..text.len()).step_by(2).map(|k| u8::from_str_radix(&text[k..k + 2], 16).ok()).collect()
}

/// The answer that is due for a text with the file of this batch.
fn due(batch: &Batch, text: &[u8]) -> Result<(), Refusal> {
    let lines = text.strip_suffix(b"\n").ok_or(Refusal::Form)?.split(|byte| *byte == b'\n');
    let frames: Vec<Vec<u8>> = lines.map(frame).collect::<Option<_>>().ok_or(Refusal::Form)?;
    let (head, jobs) = frames.split_first().ok_or(Refusal::Form)?;
    if head.len() != 9 || head[..2] != [0xB0, 1] || jobs.iter().any(|line| line.len() != 4 || line[0] != 0xB1) {
        return Err(Refusal::Form);
    }
    if usize::from(head[2]) != batch.jobs.len() || !jobs.iter().map(|line| line[1]).eq(0..head[2]) {
        return Err(Refusal::Order);
    }
    let starts: Vec<u16> = jobs.iter().map(|line| u16::from_be_bytes([line[2], line[3]])).collect();
    batch.fault(&starts, u16::from_be_bytes([head[3], head[4]])).map_or(Ok(()), |_| Err(Refusal::Invalid))
}

/// A search that ends within 2,000 nodes, run in random budgets to its end; every best on the way passes with the file.
fn searched(file: &[u8], random: &mut Random) -> Option<Search> {
    let mut search = Search::open(file).ok()?;
    let mut nodes = 0;
    while !search.has_ended() && nodes < 2000 {
        let budget = random.below(40) as u32;
        assert!(search.run(budget).is_ok());
        nodes += budget;
        if let Some(best) = search.best() {
            assert_eq!(judge(file, &text_of(best.starts(), best.latency(), search.total())), Ok(()));
        }
    }
    search.has_ended().then_some(search)
}

/// Random batches whose search ends soon with a plan, with its text.
fn planned(random: &mut Random, count: usize) -> Vec<(Batch, Vec<u8>)> {
    let batches: Vec<Batch> = (0..count).map(|_| random.batch(5)).collect();
    let texts = batches.into_iter().filter_map(|batch| {
        let search = searched(&batch.file(), random)?;
        search.plan().map(|_| (batch, search.plan_text().unwrap()))
    });
    texts.collect()
}

#[test]
fn refusals() {
    let rows: [(&[u8], Refusal, u8); 14] = [
        (b"", Refusal::Form, 17),
        (b"B200000003\n", Refusal::Form, 17),
        (b"B00102000300000003\nB1000001\nB1010000", Refusal::Form, 17),
        (b"B00102000300000003\nB1000001\nB1010000\n\n", Refusal::Form, 17),
        (b"b00102000300000003\nb1000001\nb1010000\n", Refusal::Form, 17),
        (b"B00202000300000003\nB1000001\nB1010000\n", Refusal::Form, 17),
        (b"B00102000300000003\nB1010000\nB1000001\nB2\n", Refusal::Form, 17),
        (b"B00101000300000003\nB1000001\nB1010000\n", Refusal::Order, 18),
        (b"B00102000300000003\n", Refusal::Order, 18),
        (b"B00102000300000003\nB1010000\nB1000001\n", Refusal::Order, 18),
        (b"B00102000900000003\nB1000001\nB1010000\nB1020000\n", Refusal::Order, 18),
        (b"B00102000300000003\nB1000000\nB1010000\n", Refusal::Invalid, 19),
        (b"B00102000200000003\nB1000001\nB1010000\n", Refusal::Invalid, 19),
        (b"B00102000400000003\nB1000001\nB1010000\n", Refusal::Invalid, 19),
    ];
    for (text, refusal, number) in rows {
        assert_eq!(judge(C3, text), Err(refusal));
        assert_eq!(refusal.number(), number);
        assert_eq!(due(&Batch::of(C3), text), Err(refusal));
    }
    assert_eq!(judge(C3, C3_PLAN), Ok(()));
}

/// The file's refusals are those of opening, whatever the text is.
#[test]
fn refused_files() {
    let crowd = Batch { jobs: vec![vec![1; 16]; 9], ..Batch::default() }.file();
    let late: [&[u8]; 2] = [b"A0020100\nA1010001\nA30000020001\n", b"A0020201\nA1010001\nA1010002\nA200010005\nA30100000004\n"];
    let rests: [&[u8]; 2] = [b"A0020100\nA1010001\nA41001\n", b"A0020100\nA1010001\nA40001\nA30000000001\n"];
    let files: [&[u8]; 7] = [b"", b"A0010\n", b"A0010000\n", b"A0010100\nA1010001\n\n", C3_PLAN, &crowd, &C3[..34]];
    for file in files.into_iter().chain(late).chain(rests) {
        let refusal = Search::open(file).expect_err("a refused file");
        for text in [b"", C3_PLAN, file] {
            assert_eq!(judge(file, text), Err(refusal));
        }
    }
}

#[test]
fn plans_of_searches() {
    let mut random = Random::new(6);
    let mut files: Vec<Vec<u8>> = batch_files("examples").into_iter().map(|(_, file)| file).collect();
    files.extend((0..600).map(|_| random.batch(6).file()));
    files.extend((0..600).map(|_| random.windowed(6).file()));
    files.extend((0..600).map(|_| random.rested(6).file()));
    let (mut plans, mut none) = (0, 0);
    for file in files {
        let Some(mut search) = searched(&file, &mut random) else { continue };
        let text = search.plan_text().unwrap();
        if let Ok(Answer::Plan { .. }) = search.run(0) {
            assert_eq!(judge(&file, &text), Ok(()));
            plans += 1;
        } else {
            assert_eq!(judge(&file, &text), Err(Refusal::Form));
            none += 1;
        }
    }
    println!("{plans} plans of searches pass; {none} texts for no plan do not");
    assert!(plans >= 100 && none >= 10, "the batches are too much alike");
}

/// Starts near each other and far apart, with the right latency and with others, up to the last starts that a text can have.
#[test]
fn random_starts() {
    let mut random = Random::new(7);
    let mut seen = BTreeMap::new();
    for k in 0..12000 {
        let batch = [Random::batch, Random::batch, Random::windowed, Random::rested][k / 3000](&mut random, 4);
        if Search::open(&batch.file()).is_err() {
            continue;
        }
        let spread = [3, 8, 20, 65536][random.below(4) as usize];
        let base = random.below(65537 - spread);
        let starts: Vec<u16> = batch.jobs.iter().map(|_| (base + random.below(spread)) as u16).collect();
        let latency = (batch.latency(&starts) as u16).wrapping_add([0, 0, 0, 1, 65535][random.below(5) as usize]); // nothing else may wrap
        let text = text_of(&starts, latency, (random.below(1 << 16) << 16 | random.below(1 << 16)) as u32);
        let valid = batch.fault(&starts, latency).is_none();
        assert_eq!(judge(&batch.file(), &text), if valid { Ok(()) } else { Err(Refusal::Invalid) }, "{starts:?} {latency} {batch:?}");
        *seen.entry(valid).or_insert(0) += 1;
    }
    println!("valid or not: {seen:?}");
    assert!(seen.len() == 2 && seen.values().all(|count| *count >= 500), "the starts are too much alike");
}

/// Texts with a byte changed, left out or put in.
#[test]
fn damaged_texts() {
    let mut random = Random::new(8);
    let mut seen = BTreeMap::new();
    for (batch, plan) in planned(&mut random, 400) {
        for _ in 0..40 {
            let mut text = plan.clone();
            let place = random.below(text.len() as u64) as usize;
            let byte = b"0123456789ABCDEF0123456789ABCDEF\n\rag\0"[random.below(37) as usize];
            match random.below(5) {
                0 => text.insert(place, byte),
                1 => drop(text.remove(place)),
                _ => text[place] = byte,
            }
            let answer = due(&batch, &text);
            assert_eq!(judge(&batch.file(), &text), answer, "{text:?} {batch:?}");
            *seen.entry(answer.err().map_or(0, Refusal::number)).or_insert(0) += 1;
        }
    }
    println!("answers: {seen:?}");
    assert!([0, 17, 18, 19].iter().all(|number| seen.get(number).is_some_and(|count| *count >= 200)), "an answer came too seldom");
}
