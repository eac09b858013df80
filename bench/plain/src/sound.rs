//! Which records a run continues.

use crate::starts::{least_starts, Ends, Table};
use crate::{clashes, Batch, Clash, Search, Turn, Window, CLASHES, DELAYS, JOBS, TICKS};

/// The clash list and the turns of a sound record.
pub fn examine(search: &Search) -> Option<(Vec<Clash>, Vec<Turn>)> {
    let batch = &search.batch;
    if !within_limits(batch) {
        return None;
    }
    let list = clashes(batch);
    if list.len() > CLASHES || !can_be_met(batch) || search.total > 100_000_000 || !best_within_limits(search) {
        return None;
    }
    let turns = turns(&search.path, list.len())?;
    if search.ended && !turns.is_empty() {
        return None;
    }
    Some((list, turns))
}

fn within_limits(batch: &Batch) -> bool {
    let counts = (1..=JOBS).contains(&batch.n.into()) && usize::from(batch.m) <= DELAYS;
    counts
        && batch.jobs().iter().all(|job| (1..=TICKS).contains(&job.ticks.into()))
        && batch
            .delays()
            .iter()
            .all(|delay| delay.from < batch.n && delay.to < batch.n && delay.from != delay.to && (-1000..=1000).contains(&delay.weight))
        && windows_within_limits(batch)
        && rests_within_limits(batch)
}

fn windows_within_limits(batch: &Batch) -> bool {
    let lined = |window: &Window| window.earliest <= 20_000 && window.earliest <= window.latest;
    match batch.edition {
        1 => batch.windows().iter().all(|window| *window == Window::OPEN),
        2 => batch.windows().iter().all(|window| if window.lined { lined(window) } else { *window == Window::OPEN }),
        _ => false,
    }
}

fn rests_within_limits(batch: &Batch) -> bool {
    let most = if batch.edition == 1 { 0 } else { 7 };
    batch.rests.iter().all(|rest| *rest <= most)
}

fn can_be_met(batch: &Batch) -> bool {
    let mut table = Table::new(batch.n.into());
    table.fill(batch.delays());
    least_starts(&table, &Ends::new(batch.windows())).is_some()
}

fn best_within_limits(search: &Search) -> bool {
    search.best.iter().all(|best| best.latency <= 43_016 && best.starts[..search.batch.n.into()].iter().all(|start| *start <= 43_000))
}

/// The turns on the path: listed clashes, none twice, with empty places only after the last.
fn turns(path: &[Option<Turn>; CLASHES], listed: usize) -> Option<Vec<Turn>> {
    let mut turns = Vec::with_capacity(listed); // room for every turn to come
    turns.extend(path.iter().map_while(|turn| *turn));
    let mut seen = [false; CLASHES];
    for turn in &turns {
        let clash = usize::from(turn.clash);
        if clash >= listed || seen[clash] {
            return None;
        }
        seen[clash] = true;
    }
    path[turns.len()..].iter().all(Option::is_none).then_some(turns)
}
