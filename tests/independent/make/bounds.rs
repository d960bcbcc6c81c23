//! Bounds of small and of random sheets.

use crate::batch::Cases;
use crate::case::Case;
use crate::dice::Dice;
use crate::random::Size;
use crate::sheet::{Row, Sheet};

/// Asks for the bounds of a sheet.
pub fn ask(cases: &mut dyn Cases, dice: &mut Dice, group: &'static str, sheet: &Sheet) {
    let (list, lent) = (dice.handed(sheet), dice.lent(2 * sheet.rows.len()));
    cases.add(group, Case::Bounds { sheet: list, list: lent });
}

/// Every row of a small separation on so many processors.
fn small_rows(m: u64, longest: u64) -> Vec<Row> {
    let mut rows = Vec::new();
    for threads in 1..=m {
        for separation in 1..=longest {
            for deadline in 1..=separation {
                rows.extend((1..=deadline).map(|budget| Row { threads, separation, deadline, budget }));
            }
        }
    }
    rows
}

/// Every sheet of one or two small rows on one to three processors.
pub fn small(cases: &mut dyn Cases, dice: &mut Dice, _: u64) {
    for processors in 1..=3 {
        let rows = small_rows(processors, 4);
        for first in &rows {
            ask(cases, dice, "bounds, every small sheet", &Sheet { processors, rows: vec![*first] });
            for second in &rows {
                ask(cases, dice, "bounds, every small sheet", &Sheet { processors, rows: vec![*first, *second] });
            }
        }
    }
}

/// Random sheets.
pub fn random(cases: &mut dyn Cases, dice: &mut Dice, times: u64) {
    for turn in 0..30_000 * times {
        let rows = dice.count();
        let sheet = dice.sheet(rows, [Size::Tiny, Size::Small, Size::Light][turn as usize % 3]);
        ask(cases, dice, "bounds, random sheets", &sheet);
    }
}
