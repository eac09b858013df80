//! The crate's numbers and the refusals' names are those of include/planner.h.
mod common;

use common::repository;
use planner::{Refusal, BATCH_TEXT, BUDGET, EARLIEST, JOBS, PLAN_TEXT, REST, STATIONS, TOTAL, VERSION};
use std::collections::BTreeMap;

/// The header's numbers by their names.
fn defined() -> BTreeMap<String, usize> {
    let header = std::fs::read_to_string(repository("include/planner.h")).unwrap();
    let lines = header.lines().filter_map(|line| line.strip_prefix("#define PLANNER_"));
    lines
        .filter_map(|line| {
            let mut words = line.split_whitespace();
            let (name, number) = (words.next()?, words.next()?);
            Some((name.to_string(), number.parse().ok()?))
        })
        .collect()
}

#[test]
fn numbers() {
    let defined = defined();
    let rows = [
        ("VERSION", VERSION as usize),
        ("JOBS", JOBS),
        ("STATIONS", STATIONS),
        ("EARLIEST", EARLIEST.into()),
        ("REST", REST.into()),
        ("BUDGET", BUDGET as usize),
        ("TOTAL", TOTAL as usize),
        ("PLAN_TEXT", PLAN_TEXT),
        ("BATCH_TEXT", BATCH_TEXT),
    ];
    for (name, number) in rows {
        assert_eq!(defined.get(name), Some(&number), "PLANNER_{name}");
    }
}

#[test]
fn refusals() {
    let defined = defined();
    assert_eq!(Refusal::ALL.len(), 21);
    assert_eq!(defined.keys().filter(|name| name.starts_with("REFUSAL_")).count(), 21);
    for refusal in Refusal::ALL {
        let name = format!("REFUSAL_{refusal:?}").to_uppercase();
        assert_eq!(defined.get(&name), Some(&usize::from(refusal.number())), "PLANNER_{name}");
    }
}
