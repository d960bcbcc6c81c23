//! Runs of slots, also of the box, whole and with faults.

use super::slots::{faulty, padded};
use crate::batch::Cases;
use crate::case::{Case, Step};
use crate::dice::Dice;
use crate::machine::{fresh, slot, Record};
use crate::random::{Size, SIZES};
use crate::sheet::Sheet;

/// The most releases of a run here.
const MOST_RELEASES: u64 = 1_024;

/// Runs: whole, with a refused slot in the middle, empty, of a wrong length, with long and short buffers.
pub fn all(cases: &mut dyn Cases, dice: &mut Dice, times: u64) {
    for turn in 0..14_000 * times {
        let rows = if turn % 4 == 0 { dice.count() } else { dice.range(1, 5) };
        let size = if turn % 16 == 0 { Size::Any } else { SIZES[turn as usize % 3] };
        let sheet = dice.sheet(rows, size);
        let boxed = turn % 3 == 0;
        let start = if boxed || dice.one_in(2) { fresh(&sheet) } else { dice.state(&sheet) };
        let most = if turn % 8 == 0 { MOST_RELEASES / rows } else { (MOST_RELEASES / rows).min(60) };
        let wrong = if turn % 2 == 0 { u64::MAX } else { 100 };
        let slots = dice.range(0, most);
        let releases = listing(dice, &sheet, &start, slots, wrong);
        let longer = dice.pick(&[0, 0, 1, 2, 7, 40]);
        let codes = dice.room(releases.len() + longer);
        let step = Step { sheet: dice.handed(&sheet), state: padded(dice, &start), codes, releases };
        let refused = faulty(dice, step.clone(), 4);
        if boxed {
            cases.add("runs of the box", Case::BoxRun(step));
            cases.add("runs of the box, faults", Case::BoxRun(refused));
        } else {
            cases.add("runs", Case::Run(step));
            cases.add("runs, faults", Case::Run(refused));
        }
    }
}

/// The releases of so many slots from a state; one in so many is likely refused.
fn listing(dice: &mut Dice, sheet: &Sheet, start: &[Record], slots: u64, wrong: u64) -> Vec<u64> {
    let (mut state, mut releases) = (start.to_vec(), Vec::new());
    for _ in 0..slots {
        let list = dice.releases(sheet, &state, wrong);
        state = slot(sheet, &state, &list, &mut [0; 32]).unwrap_or(state);
        releases.extend(list);
    }
    releases
}
