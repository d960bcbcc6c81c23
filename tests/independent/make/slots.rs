//! Slots and margins of random states, legal and not.

use super::handed::spoiled;
use crate::batch::Cases;
use crate::case::{Case, Step};
use crate::dice::Dice;
use crate::machine::{fresh, listed, slot, Record};
use crate::random::{LONGEST_STATE_LIST, SIZES};
use crate::sheet::at;

/// The state's list, sometimes with zeros after its records.
pub fn padded(dice: &mut Dice, state: &[Record]) -> Vec<u64> {
    let mut list = listed(state);
    if dice.one_in(3) {
        list.resize(dice.range(list.len() as u64, LONGEST_STATE_LIST as u64) as usize, 0);
    }
    list
}

/// A state's list with one number likely illegal, or some missing or too many.
fn broken_state(dice: &mut Dice, sheet: &[u64], mut list: Vec<u64>) -> Vec<u64> {
    let records = list.len() / 2;
    let k = dice.range(0, records as u64 - 1) as usize;
    let [separation, deadline, budget] = [3, 4, 5].map(|field| at(sheet, 4 * k + field));
    match dice.range(0, 9) {
        0 => list[2 * k + 1] = 0,
        1 => list[2 * k + 1] = separation.wrapping_add(1),
        2 => list[2 * k] = budget.wrapping_add(1),
        3 => (list[2 * k], list[2 * k + 1]) = (1, deadline),
        4 => list[2 * k] = dice.garbage(),
        5 => list[2 * k + 1] = dice.garbage(),
        6 => list.truncate(dice.range(0, list.len() as u64) as usize),
        7 => list.push(dice.garbage()),
        8 => {
            list.resize(dice.range(2 * records as u64, LONGEST_STATE_LIST as u64) as usize, 0);
            *list.last_mut().expect("there is a record") = dice.pick(&[1, u64::MAX]);
        }
        _ => {
            list.resize(LONGEST_STATE_LIST, 0);
            let place = dice.range(list.len() as u64 / 2, list.len() as u64 - 1) as usize;
            list[place] = dice.pick(&[1, 2, u64::MAX]);
        }
    }
    list.truncate(LONGEST_STATE_LIST);
    list
}

/// A step with each fault thrown apart from the others, once in so many.
pub fn faulty(dice: &mut Dice, mut step: Step, one_in: u64) -> Step {
    if dice.one_in(one_in) && step.state.len() > 1 {
        step.state = broken_state(dice, &step.sheet, step.state);
    }
    if dice.one_in(one_in) {
        step.sheet = spoiled(dice, step.sheet);
    }
    if dice.one_in(one_in) {
        let long = step.releases.len();
        let length = dice.pick(&[0, 1, long / 2, long.saturating_sub(1), long + 1, (long * 2).min(1_024)]);
        step.releases.resize(length.min(1_024), 1);
    }
    if dice.one_in(one_in) && !step.releases.is_empty() {
        let k = dice.range(0, step.releases.len() as u64 - 1) as usize;
        step.releases[k] = dice.garbage();
    }
    if dice.one_in(one_in) {
        let long = step.releases.len() as u64;
        let shorter = if dice.one_in(2) { long.saturating_sub(1) } else { dice.range(0, long) };
        step.codes = dice.room(shorter as usize);
    }
    step
}

/// Chains of slots from fresh and from random legal states, each slot also with faults, and margins between them.
pub fn all(cases: &mut dyn Cases, dice: &mut Dice, times: u64) {
    for turn in 0..4_000 * times {
        let rows = dice.count();
        let sheet = dice.sheet(rows, SIZES[turn as usize % SIZES.len()]);
        let list = dice.handed(&sheet);
        let mut state = if dice.one_in(3) { fresh(&sheet) } else { dice.state(&sheet) };
        for _ in 0..8 {
            let releases = dice.releases(&sheet, &state, 60);
            let longer = dice.pick(&[0, 0, 1, 2, 7, 40]);
            let codes = dice.room(releases.len() + longer);
            let step = Step { sheet: list.clone(), state: padded(dice, &state), codes, releases };
            let row = dice.pick(&[dice.0 % rows, rows, 31, 32, u64::MAX]);
            cases.add("margins", Case::Margin { sheet: list.clone(), state: step.state.clone(), row });
            let next = slot(&sheet, &state, &step.releases, &mut [0; 32]);
            let refused = faulty(dice, step.clone(), 4);
            cases.add("slots", Case::Slot(step));
            cases.add("slots, faults", Case::Slot(refused));
            state = next.unwrap_or(state);
        }
    }
}

/// Margins of every row and past the last, of legal and illegal states.
pub fn margins(cases: &mut dyn Cases, dice: &mut Dice, times: u64) {
    for turn in 0..1_000 * times {
        let rows = dice.range(1, 12);
        let sheet = dice.sheet(rows, SIZES[turn as usize % SIZES.len()]);
        let (list, state) = (dice.handed(&sheet), dice.state(&sheet));
        for row in (0..=rows + 1).chain([1 << 32, 1 << 63, u64::MAX]) {
            cases.add("margins", Case::Margin { sheet: list.clone(), state: listed(&state), row });
        }
        for (bad_sheet, bad_state) in [(false, true), (true, false), (true, true)] {
            let state = if bad_state { broken_state(dice, &list, listed(&state)) } else { padded(dice, &state) };
            let sheet = if bad_sheet { spoiled(dice, list.clone()) } else { list.clone() };
            cases.add("margins, faults", Case::Margin { sheet, state, row: dice.range(0, rows) });
        }
    }
}
