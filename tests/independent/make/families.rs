//! Bounds of families that are hard: long walks, close sums, deadlines at the bound.

use super::bounds::ask;
use crate::batch::Cases;
use crate::bound::{bounds, Outcome};
use crate::dice::Dice;
use crate::sheet::{Row, Sheet, MOST_ROWS};

/// A family: its name, how many sheets of it, and a sheet of it.
type Family = (&'static str, u64, fn(&mut Dice) -> Sheet);

const FAMILIES: [Family; 7] = [
    ("bounds, layered rows", 15_000, layered),
    ("bounds, a long wide row above many", 8_000, long_wide),
    ("bounds, equal wide rows", 8_000, equal),
    ("bounds, small periods under a long deadline", 12_000, small_periods),
    ("bounds, saturated sheets", 12_000, saturated),
    ("bounds, rows as wide as all processors", 6_000, full_width),
    ("bounds, sums at q times X", 12_000, at_room),
];

/// Every family, and sheets with deadlines at their bounds.
pub fn all(cases: &mut dyn Cases, dice: &mut Dice, times: u64) {
    for (name, count, make) in FAMILIES {
        for _ in 0..count * times {
            let sheet = make(dice);
            ask(cases, dice, name, &sheet);
        }
    }
    for turn in 0..10_000 * times {
        let (_, _, make) = FAMILIES[turn as usize % FAMILIES.len()];
        let sheet = make(dice);
        at_bound(cases, dice, sheet);
    }
}

/// Separations grow from the top, and together the rows fill a share of the processors.
pub fn layered(dice: &mut Dice) -> Sheet {
    let processors = dice.pick(&[1, 2, 3, 4, 8, 16, 64]);
    let count = dice.range(2, MOST_ROWS as u64);
    let share = dice.range(2, 12);
    let mut separation = dice.range(2, 60);
    let mut rows = Vec::new();
    for _ in 0..count {
        let threads = if dice.one_in(4) { dice.range(1, processors) } else { dice.range(1, 1 + processors / 4).min(processors) };
        let deadline = if dice.one_in(2) { separation } else { dice.range(1 + separation / 2, separation) };
        let fair = 4 * deadline * processors / (threads * count * share);
        let budget = dice.range(1, fair.clamp(1, deadline));
        rows.push(Row { threads, separation, deadline, budget });
        separation = (separation + dice.range(0, 2 + separation / 3)).min(900);
    }
    Sheet { processors, rows }
}

/// One row that is long and wide, many small ones below.
fn long_wide(dice: &mut Dice) -> Sheet {
    let processors = dice.processors();
    let separation = dice.range(20, 200);
    let budget = dice.range(separation / 4, separation / 2 + separation / 4);
    let mut rows = vec![Row { threads: dice.range(1 + processors / 2, processors), separation, deadline: separation, budget }];
    for _ in 0..dice.range(2, MOST_ROWS as u64 - 1) {
        let threads = if dice.one_in(2) { processors } else { dice.range(1, processors) };
        let separation = dice.range(separation, separation + 50);
        rows.push(Row { threads, separation, deadline: separation, budget: dice.range(1, 3) });
    }
    Sheet { processors, rows }
}

/// Equal rows, or nearly so, that fill their separation together.
fn equal(dice: &mut Dice) -> Sheet {
    let processors = dice.processors();
    let count = dice.range(2, MOST_ROWS as u64);
    let separation = dice.range(count, 8 * count);
    let threads = dice.range(1 + processors / 2, processors);
    let budget = (separation / count).max(1);
    let row = |dice: &mut Dice| {
        let less = dice.range(0, 1).min(budget - 1);
        Row { threads, separation, deadline: separation, budget: budget - if dice.one_in(8) { less } else { 0 } }
    };
    Sheet { processors, rows: (0..count).map(|_| row(dice)).collect() }
}

/// Rows of small separations that leave little room, above one with a long deadline.
fn small_periods(dice: &mut Dice) -> Sheet {
    let processors = dice.pick(&[1, 1, 2, 2, 3, 4]);
    let mut rows = Vec::new();
    for _ in 0..dice.range(1, 5) {
        let separation = dice.range(2, 20);
        let threads = dice.range(1, processors);
        rows.push(Row { threads, separation, deadline: separation, budget: dice.range(1, 1 + separation / 3) });
    }
    let deadline = dice.range(200, 1_500);
    let budget = dice.range(1, 1 + deadline / 6);
    rows.push(Row { threads: dice.range(1, processors), separation: deadline + dice.range(0, 9), deadline, budget });
    Sheet { processors, rows }
}

/// Harmonic rows whose shares come to all the processors or almost.
fn saturated(dice: &mut Dice) -> Sheet {
    let processors = dice.range(1, 4);
    let base = dice.range(2, 6);
    let mut left = 16 * base * processors;
    let mut rows = Vec::new();
    for k in 0..dice.range(2, 9) {
        let times = 1 << (k / 2).min(4);
        let (separation, threads) = (base * times, dice.range(1, processors));
        let most = (left * times / (16 * threads)).min(separation);
        if most == 0 {
            break;
        }
        let budget = if dice.one_in(3) { most } else { dice.range(1, most) };
        left -= (budget * threads * 16 / times).min(left);
        rows.push(Row { threads, separation, deadline: separation, budget });
    }
    Sheet { processors, rows }
}

/// Rows that each take all the processors, so that they run one after the other.
fn full_width(dice: &mut Dice) -> Sheet {
    let mut sheet = layered(dice);
    for row in &mut sheet.rows {
        row.budget = 1 + (row.budget - 1) * row.threads / sheet.processors;
        row.threads = sheet.processors;
    }
    sheet
}

/// Rows that always run, whose threads come to q of the widest rows below, to one less or to one more: the sum reaches q times X before its last row, or stays just short of it.
fn at_room(dice: &mut Dice) -> Sheet {
    let processors = dice.range(2, 12);
    let widest = dice.range(1, processors);
    let (mut left, mut rows) = ((processors - widest + dice.range(0, 2)).min(processors), Vec::new());
    while left > 0 {
        let (threads, separation) = (dice.range(1, left), dice.range(1, 3));
        rows.push(Row { threads, separation, deadline: separation, budget: separation });
        left -= threads;
    }
    for _ in 0..dice.range(1, 8) {
        let threads = if dice.one_in(2) { widest } else { dice.range(1, widest) };
        let separation = dice.range(20, 400);
        rows.push(Row { threads, separation, deadline: separation, budget: dice.range(1, 1 + separation / 6) });
    }
    Sheet { processors, rows }
}

/// A sheet with every deadline at its bound, and with one a slot shorter.
fn at_bound(cases: &mut dyn Cases, dice: &mut Dice, mut sheet: Sheet) {
    let results = bounds(&sheet);
    for (row, result) in sheet.rows.iter_mut().zip(results) {
        if let Outcome::Bound(bound) = result {
            row.deadline = bound;
        }
    }
    ask(cases, dice, "bounds, deadlines at the bound", &sheet);
    let last = sheet.rows.len() as u64 - 1;
    let row = &mut sheet.rows[dice.range(0, last) as usize];
    if row.deadline > row.budget {
        row.deadline -= 1;
        ask(cases, dice, "bounds, a deadline below the bound", &sheet);
    }
}
