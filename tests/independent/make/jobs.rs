//! Sheets that hold, run with releases as hard as they may come: every job is held to its row's bound.

use super::families::layered;
use crate::batch::{Cases, Item};
use crate::bound::{bounds, Outcome};
use crate::case::{Case, Kind, Room, Step};
use crate::dice::Dice;
use crate::machine::{fresh, listed, slot, Record};
use crate::random::Size;
use crate::sheet::{Row, Sheet, MOST_ROWS};

/// The most releases of one run.
const MOST_RELEASES: usize = 1_024;

/// How the rows of a run are released.
#[derive(Clone, Copy)]
enum Manner {
    /// All at once, then each at its earliest.
    Together,
    /// Each from a slot of its own on, then at its earliest.
    Apart,
    /// Whenever all may be released, all at once.
    Again,
    /// Each ready row in two slots of three, with any budget.
    Loose,
}

const MANNERS: [Manner; 6] = [Manner::Together, Manner::Apart, Manner::Again, Manner::Apart, Manner::Loose, Manner::Apart];

/// Random sheets that hold, each run in every manner, one run after the other from the state that it leaves.
pub fn all(cases: &mut dyn Cases, dice: &mut Dice, times: u64) {
    let mut found = 0;
    while found < 450 * times && cases.wants(&[Kind::Run, Kind::BoxRun]) {
        let mut sheet = if found % 4 == 0 { layered(dice) } else { dense(dice) };
        sheet.rows.truncate(8);
        let results = bounds(&sheet);
        let bounds: Vec<u64> =
            results.iter().filter_map(|result| if let Outcome::Bound(bound) = result { Some(*bound) } else { None }).collect();
        if bounds.len() < results.len() {
            continue;
        }
        found += 1;
        for manner in MANNERS {
            chain(cases, dice, &sheet, &bounds, manner);
        }
    }
}

/// A sheet of few rows with short separations, which are close to full.
fn dense(dice: &mut Dice) -> Sheet {
    let processors = dice.range(1, 6);
    let mut rows = Vec::new();
    for k in 0..dice.range(2, 6) {
        let row = dice.row(processors, Size::Tiny);
        let separation = row.separation + 3 * k;
        let deadline = if dice.one_in(2) { separation } else { dice.range(1 + separation / 2, separation) };
        rows.push(Row { separation, deadline, budget: row.budget.min(deadline), ..row });
    }
    Sheet { processors, rows }
}

/// A run of the box and one that goes on from the state it leaves.
fn chain(cases: &mut dyn Cases, dice: &mut Dice, sheet: &Sheet, bounds: &[u64], manner: Manner) {
    let n = sheet.rows.len();
    let begin: Vec<u64> = sheet.rows.iter().map(|row| dice.range(0, 2 * row.separation)).collect();
    let start = fresh(sheet);
    let mut state = start.clone();
    let mut lists = [Vec::new(), Vec::new()];
    let mut between = start;
    for turn in 0..2 * (MOST_RELEASES / n) {
        let half = turn / (MOST_RELEASES / n);
        if half == 1 && lists[1].is_empty() {
            between = state.clone();
        }
        let releases = released(dice, sheet, &state, manner, turn as u64, &begin);
        state = slot(sheet, &state, &releases, &mut [0; 32]).unwrap_or(state);
        lists[half].extend(releases);
    }
    let [first, second] = lists;
    let room = |long: usize| Room { before: 0, long, bytes: vec![9; long] };
    let lent = vec![9; 2 * MOST_ROWS];
    let boxed = Case::BoxRun(Step { sheet: sheet.list(), state: lent, codes: room(first.len()), releases: first });
    let step = Step { sheet: sheet.list(), state: listed(&between), codes: room(second.len()), releases: second };
    for (group, case) in [("jobs held to their bounds, the box", boxed), ("jobs held to their bounds, runs", Case::Run(step))] {
        cases.item(Item { group, case, bounds: Some(bounds.to_vec()) });
    }
}

/// The releases of a slot in this manner.
fn released(dice: &mut Dice, sheet: &Sheet, state: &[Record], manner: Manner, slot: u64, begin: &[u64]) -> Vec<u64> {
    let ready = |k: usize| state[k].since >= sheet.rows[k].separation;
    let all = (0..state.len()).all(ready);
    let mut list = Vec::new();
    for (k, row) in sheet.rows.iter().enumerate() {
        let (now, budget) = match manner {
            Manner::Together => (true, row.budget),
            Manner::Apart => (slot >= begin[k], row.budget),
            Manner::Again => (all, row.budget),
            Manner::Loose => (!dice.one_in(3), dice.range(1, row.budget)),
        };
        list.push(if now && ready(k) { budget } else { 0 });
    }
    list
}
