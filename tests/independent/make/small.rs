//! Every state of small sheets that a few slots reach, and every one that is nearly legal, with every release list.

use crate::batch::Cases;
use crate::case::{Case, Room, Step};
use crate::dice::Dice;
use crate::machine::{fresh, listed, slot, Record};
use crate::sheet::{fixed, Sheet};

/// The sheets whose states are followed, with the slots from the fresh state.
fn followed() -> Vec<(Sheet, u64)> {
    let [a, b, c, d, e, f] = fixed();
    let narrow = Sheet::of(2, &[[1, 2, 2, 2], [2, 3, 2, 1], [1, 3, 3, 2]]);
    let late = Sheet::of(1, &[[1, 3, 2, 1], [1, 4, 3, 2]]);
    vec![(a, 6), (b, 5), (c, 12), (d, 12), (e, 6), (f, 3), (narrow, 6), (late, 12)]
}

/// Every small state.
pub fn all(cases: &mut dyn Cases, _: &mut Dice, _: u64) {
    nearly_legal(cases);
    for (sheet, slots) in followed() {
        reached(cases, &sheet, slots);
    }
}

/// Every list of one number for each row, from zero to one past the most.
fn every_list(most: &[u64]) -> Vec<Vec<u64>> {
    match most {
        [] => vec![vec![]],
        [first, rest @ ..] => {
            let tails = every_list(rest);
            (0..=first + 1).flat_map(|head| tails.iter().map(move |tail| [&[head], &tail[..]].concat())).collect()
        }
    }
}

/// A slot's case, with a byte before the buffer and one after it.
fn step(sheet: &Sheet, state: &[Record], releases: Vec<u64>) -> Case {
    let long = releases.len();
    Case::Slot(Step {
        sheet: sheet.list(),
        state: listed(state),
        releases,
        codes: Room { before: 1, long, bytes: vec![9; long + 2] },
    })
}

/// Every state that so many slots reach, with every release list and every margin.
fn reached(cases: &mut dyn Cases, sheet: &Sheet, slots: u64) {
    let lists = every_list(&sheet.rows.iter().map(|row| row.budget).collect::<Vec<u64>>());
    let mut seen = vec![fresh(sheet)];
    let mut first = 0;
    for _ in 0..slots {
        let last = seen.len();
        for at in first..last {
            let state = seen[at].clone();
            for row in 0..=sheet.rows.len() as u64 {
                cases.add("margins, every state reached", Case::Margin { sheet: sheet.list(), state: listed(&state), row });
            }
            for releases in &lists {
                cases.add("slots, every state reached", step(sheet, &state, releases.clone()));
                if let Ok(next) = slot(sheet, &state, releases, &mut [0; 32]) {
                    if !seen.contains(&next) {
                        seen.push(next);
                    }
                }
            }
        }
        first = last;
    }
}

/// Every state of sheet C that is legal or nearly so.
fn nearly_legal(cases: &mut dyn Cases) {
    let [_, _, c, ..] = fixed();
    for numbers in every_list(&[1, 2, 3, 4]) {
        let state = [Record { remaining: numbers[0], since: numbers[1] }, Record { remaining: numbers[2], since: numbers[3] }];
        for row in 0..=2 {
            cases.add("margins, every small state", Case::Margin { sheet: c.list(), state: numbers.clone(), row });
        }
        for releases in every_list(&[1, 3]) {
            cases.add("slots, every small state", step(&c, &state, releases));
        }
    }
}
