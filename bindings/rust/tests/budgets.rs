//! A whole search in small budgets comes to the same as one in large budgets: answers, totals, plan, texts, and the record itself.
mod common;

use common::{batch_files, repository, Batch, Random};
use planner::{Answer, Search, BUDGET};

/// Runs a search to its end with the budgets that `next` gives. Every answer's total is the smaller of the budgets so far and N.
fn driven(fresh: &Search, mut next: impl FnMut() -> u32) -> (Search, Answer) {
    let mut search = fresh.clone();
    let mut sum = 0;
    loop {
        let (before, budget) = (sum, next());
        sum += u64::from(budget);
        let answer = search.run(budget).expect("a run within the limits is answered");
        match answer {
            Answer::Spent { total } => {
                assert_eq!(u64::from(total), sum, "a spent run has used its whole budget");
                assert!(!search.has_ended() && search.plan().is_none());
            }
            Answer::Plan { total, .. } | Answer::NoPlan { total } => {
                assert!(before < u64::from(total) && u64::from(total) <= sum, "the search has ended in this run");
                assert!(search.has_ended());
                return (search, answer);
            }
        }
        assert_eq!(u64::from(search.total()), sum);
    }
}

/// What an ended search must give, whatever its budgets were: checked against the batch that its file says.
fn judged(file: &[u8], search: &Search, answer: Answer) {
    let text = String::from_utf8(search.plan_text().unwrap()).unwrap();
    match (answer, search.plan()) {
        (Answer::Plan { latency, total }, Some(plan)) => {
            assert_eq!(Batch::of(file).fault(plan.starts(), plan.latency()), None);
            assert_eq!(plan.latency(), latency);
            assert_eq!(search.best(), Some(plan));
            let mut due = format!("B001{:02X}{latency:04X}{total:08X}\n", search.jobs().len());
            for (job, start) in plan.starts().iter().enumerate() {
                due += &format!("B1{job:02X}{start:04X}\n");
            }
            assert_eq!(text, due);
        }
        (Answer::NoPlan { total }, None) => assert_eq!(text, format!("B2{total:08X}\n")),
        other => panic!("an ended search with {other:?}"),
    }
    assert_eq!(search.batch_text().unwrap(), file, "the batch text is the file");
}

/// One file in large budgets and in small ones. Gives the answer.
fn compared(file: &[u8], random: &mut Random) -> Answer {
    let fresh = Search::open(file).expect("an accepted file");
    let (large, answer) = driven(&fresh, || BUDGET);
    judged(file, &large, answer);
    let most = u64::from(large.total()).min(1000) + 1;
    let small: [(Search, Answer); 4] =
        [driven(&fresh, || 1), driven(&fresh, || 7), driven(&fresh, || 100), driven(&fresh, || random.below(most) as u32 + 1)];
    for (search, again) in small {
        assert_eq!(again, answer);
        assert!(search == large, "the records differ");
    }
    let (mut again, mut late) = (large.clone(), fresh.clone());
    assert_eq!(again.run(5), Ok(answer), "an ended search answers again");
    assert!(again == large);
    let part = random.below(u64::from(large.total())) as u32;
    assert_eq!(late.run(part), Ok(Answer::Spent { total: part }));
    let mut pieces = fresh.clone();
    (0..part).for_each(|_| assert!(pieces.run(1).is_ok()));
    assert!(pieces == late, "the records differ on the way");
    answer
}

#[test]
fn examples() {
    let mut random = Random::new(1);
    let (mut accepted, mut refused) = (0, 0);
    for (name, file) in batch_files("examples") {
        if Search::open(&file).is_err() {
            println!("{name}: refused");
            refused += 1;
            continue;
        }
        println!("{name}: {:?}", compared(&file, &mut random));
        accepted += 1;
    }
    println!("{accepted} example files in small budgets and in large ones, {refused} refused");
    assert!(accepted >= 7 && refused >= 1, "the examples are not there");
}

/// The README's lines of a kind, `A` of a batch or `B` of a plan text, that have remarks, without these; each with the example that is named last before.
fn remarked(readme: &str, kind: char) -> Vec<(&str, &str)> {
    let (mut example, mut found) = ("", Vec::new());
    for line in readme.lines() {
        if let Some((_, after)) = line.split_once("examples/") {
            example = after.split_once(".batch").map_or(example, |(name, _)| name);
        }
        let frame = line.strip_prefix("    ").filter(|frame| frame.starts_with(kind)).and_then(|frame| frame.split_once("  "));
        found.extend(frame.filter(|(text, _)| text.bytes().all(|byte| byte.is_ascii_hexdigit())).map(|(text, _)| (example, text)));
    }
    found
}

/// The README's worked examples come out as printed there.
#[test]
fn worked_examples() {
    let readme = std::fs::read_to_string(repository("README.md")).unwrap();
    let (batches, texts) = (remarked(&readme, 'A'), remarked(&readme, 'B'));
    let lines = |all: &[(&str, &str)], name: &str| -> String {
        all.iter().filter(|one| one.0 == name).map(|one| one.1.to_string() + "\n").collect()
    };
    let mut names: Vec<&str> = batches.iter().chain(&texts).map(|(name, _)| *name).collect();
    names.dedup();
    for name in &names {
        let file = std::fs::read_to_string(repository(&format!("examples/{name}.batch"))).unwrap();
        assert_eq!(lines(&batches, name), file);
        let (search, _) = driven(&Search::open(file.as_bytes()).unwrap(), || 2);
        assert_eq!(String::from_utf8(search.plan_text().unwrap()).unwrap(), lines(&texts, name));
    }
    println!("worked examples: {names:?}");
    assert!(names.contains(&"wedding"), "the README has no worked example");
}

#[test]
fn random_batches() {
    let mut random = Random::new(2);
    let (mut plans, mut none, mut left_out, mut nodes) = (0, 0, 0, 0u64);
    for k in 0..1800 {
        let file = [Random::batch, Random::windowed, Random::rested][k / 600](&mut random, 6).file();
        let ends_soon = |mut probe: Search| !matches!(probe.run(2000), Ok(Answer::Spent { .. }));
        if !Search::open(&file).is_ok_and(ends_soon) {
            left_out += 1;
            continue;
        }
        match compared(&file, &mut random) {
            Answer::Plan { total, .. } => (plans, nodes) = (plans + 1, nodes + u64::from(total)),
            Answer::NoPlan { total } => (none, nodes) = (none + 1, nodes + u64::from(total)),
            Answer::Spent { .. } => unreachable!("driven to its end"),
        }
    }
    println!("{plans} batches with a plan and {none} without, {nodes} nodes; {left_out} refused or above 2,000 nodes");
    assert!(plans >= 200 && none >= 20 && nodes >= 8000, "the batches are too much alike");
}

/// More than one run even in the largest budgets.
#[test]
fn past_a_million_nodes() {
    let file = std::fs::read(repository("bench/batches/twelve.batch")).unwrap();
    let fresh = Search::open(&file).unwrap();
    let (large, answer) = driven(&fresh, || BUDGET);
    judged(&file, &large, answer);
    assert!(large.total() > BUDGET);
    let mut random = Random::new(3);
    let (small, again) = driven(&fresh, || random.below(20_000) as u32);
    assert_eq!(again, answer);
    assert!(small == large);
}
