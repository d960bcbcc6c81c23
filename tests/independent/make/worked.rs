//! The cases worked by hand: sheets A to F, the runs G and H, the numbers I, and sheet C in bytes and written again.

use crate::batch::Cases;
use crate::case::{Case, Draft, Room, Step};
use crate::dice::Dice;
use crate::hand::SHEET_C;
use crate::machine::{fresh, listed};
use crate::scenario::write;
use crate::sheet::{fixed, Sheet, MOST_ROWS};

/// The names of the groups.
const BYTES: &str = "worked by hand, bytes";
const SHEETS: &str = "worked by hand, sheets";
const MACHINES: &str = "worked by hand, slots";
const SCENARIOS: &str = "worked by hand, scenarios";
const WRITTEN: &str = "worked by hand, sheets written";

/// One or a few cases of each kind.
pub fn all(cases: &mut dyn Cases, _: &mut Dice, _: u64) {
    bytes(cases);
    sheets(cases);
    machines(cases);
    scenarios(cases);
    written(cases);
}

/// So many bytes to lend, with one before and two after.
fn room(long: usize) -> Room {
    Room { before: 1, long, bytes: vec![9; long + 3] }
}

/// The numbers I, and sheet C whole and with its last byte zero.
fn bytes(cases: &mut dyn Cases) {
    for bytes in [b"\x80\x01", b"\x80\x00"] {
        cases.add(BYTES, Case::Number { at: 0, bytes: bytes.to_vec() });
        cases.add(BYTES, Case::UpTo { at: 0, most: 128, bytes: bytes.to_vec() });
    }
    let mut zero = SHEET_C.to_vec();
    *zero.last_mut().expect("it has bytes") = 0;
    for bytes in [SHEET_C.to_vec(), zero] {
        cases.add(BYTES, Case::Read { list: vec![7; 12], bytes: bytes.clone() });
        cases.add(BYTES, Case::Verdict { text: room(40), bytes: bytes.clone() });
        cases.add(BYTES, Case::Green { bytes: bytes.clone() });
        (0..3).for_each(|row| cases.add(BYTES, Case::Label { row, bytes: bytes.clone() }));
    }
    cases.add(BYTES, Case::Sweep { bytes: SHEET_C[..SHEET_C.len() - 1].to_vec() });
}

/// Sheets A to F, and sheet F out of range.
fn sheets(cases: &mut dyn Cases) {
    (0..=6).for_each(|number| cases.add(SHEETS, Case::Fixed { number, list: vec![7; 2 + 4 * MOST_ROWS] }));
    let outside = Sheet::of(1, &[[1, 1, 2, 1]]);
    for sheet in fixed().into_iter().chain([outside]) {
        let (list, lent) = (sheet.list(), vec![7; 2 * sheet.rows.len() + 2]);
        cases.add(SHEETS, Case::Legal { sheet: list.clone() });
        cases.add(SHEETS, Case::Bounds { sheet: list.clone(), list: lent.clone() });
        cases.add(SHEETS, Case::Fresh { sheet: list, list: lent });
    }
}

/// G and H, each as a run, of the box too, and its first slot; margins in G after that slot.
fn machines(cases: &mut dyn Cases) {
    let [_, b, c, ..] = fixed();
    for (sheet, releases) in [(&c, vec![1, 3, 0, 0, 1, 0, 0, 0]), (&b, vec![2, 2, 3, 0, 0, 0, 0, 0, 0, 0, 0, 0])] {
        let n = sheet.rows.len();
        let (list, state) = (sheet.list(), listed(&fresh(sheet)));
        let lent = vec![7; 2 * n + 2];
        cases.add(
            MACHINES,
            Case::BoxRun(Step { sheet: list.clone(), state: lent, codes: room(releases.len()), releases: releases.clone() }),
        );
        let first = releases[..n].to_vec();
        cases.add(MACHINES, Case::Run(Step { sheet: list.clone(), state: state.clone(), codes: room(releases.len()), releases }));
        cases.add(MACHINES, Case::Slot(Step { sheet: list, state, codes: room(n), releases: first }));
    }
    (0..=2).for_each(|row| cases.add(MACHINES, Case::Margin { sheet: c.list(), state: vec![0, 1, 3, 1], row }));
}

/// G and H as scenarios, written and read; G with a row twice.
fn scenarios(cases: &mut dyn Cases) {
    let [_, b, c, ..] = fixed();
    for (sheet, releases) in [(&c, vec![1, 3, 0, 0, 1, 0, 0, 0]), (&b, vec![2, 2, 3, 0, 0, 0, 0, 0, 0, 0, 0, 0])] {
        let (list, bytes) = (sheet.list(), write(sheet, &releases).unwrap_or_default());
        cases.add(SCENARIOS, Case::WriteScenario { sheet: list.clone(), buffer: room(bytes.len()), releases });
        cases.add(SCENARIOS, Case::ReadScenario { sheet: list.clone(), list: vec![7; 14], bytes: bytes.clone() });
        cases.add(SCENARIOS, Case::ScenarioSweep { sheet: list, bytes });
    }
    cases.add(
        SCENARIOS,
        Case::ReadScenario { sheet: c.list(), list: vec![7; 14], bytes: b"GSC\x01\x02\x01\x01\x01\x01".to_vec() },
    );
}

/// The labels of sheet C, and it written from its own bytes: whole, and at fault in its last number, in a label and in the buffer's
/// length, one of these by itself and two at once.
fn written(cases: &mut dyn Cases) {
    let bytes = Room { before: 0, long: SHEET_C.len(), bytes: SHEET_C.to_vec() };
    [0, 4, 6].into_iter().for_each(|long| cases.add(WRITTEN, Case::Labels { list: vec![7; long], bytes: SHEET_C.to_vec() }));
    for (budget, length, long) in [(3, 4, 24), (0, 4, 24), (3, 0, 24), (3, 4, 23), (0, 0, 24), (3, 0, 0), (0, 4, 0)] {
        let mut sheet = fixed()[2].list();
        sheet[9] = budget;
        let draft = Draft { sheet, labels: vec![7, 4, 16, length], bytes: bytes.clone(), buffer: room(long) };
        cases.add(WRITTEN, Case::Write(draft));
    }
}
