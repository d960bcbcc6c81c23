//! Sheets handed over in lists: ranges, fresh states, and the fixed sheets.

use crate::batch::Cases;
use crate::case::Case;
use crate::dice::Dice;
use crate::random::{Size, LONGEST_SHEET_LIST, SIZES};
use crate::sheet::{at, Sheet, LONGEST_SEPARATION, MOST_PROCESSORS, MOST_ROWS};

/// The longest deadline that a plain walk to a bound is asked with here.
const LONG_WALK: u64 = 300;

/// Legal sheets, sheets out of range in one number, lists too short and too long, and the fixed sheets.
pub fn all(cases: &mut dyn Cases, dice: &mut Dice, times: u64) {
    for number in (0..=40).chain([255, 256, 1 << 32, 1 << 63, u64::MAX]) {
        for length in (0..=16).chain([2 + 4 * MOST_ROWS, LONGEST_SHEET_LIST]) {
            cases.add("fixed sheets", Case::Fixed { number, list: vec![7; length] });
        }
    }
    for turn in 0..15_000 * times {
        let rows = dice.count();
        let sheet = dice.sheet(rows, SIZES[turn as usize % SIZES.len()]);
        let list = dice.handed(&sheet);
        asked(cases, dice, "sheets handed over, legal", &list);
        let list = spoiled(dice, list);
        asked(cases, dice, "sheets handed over, one number", &list);
    }
    lengths(cases, dice);
    counts(cases, dice);
    every_number(cases, dice);
}

/// A sheet's list asked in each way; its bounds only where that is short work.
fn asked(cases: &mut dyn Cases, dice: &mut Dice, group: &'static str, sheet: &[u64]) {
    let rows = (at(sheet, 1) as usize).clamp(1, MOST_ROWS);
    cases.add(group, Case::Legal { sheet: sheet.to_vec() });
    cases.add(group, Case::Fresh { sheet: sheet.to_vec(), list: dice.lent(2 * rows) });
    if Sheet::handed(sheet).map_or(true, |sheet| sheet.rows.iter().all(|row| row.deadline <= LONG_WALK)) {
        cases.add(group, Case::Bounds { sheet: sheet.to_vec(), list: dice.lent(2 * rows) });
    }
}

/// A list with one number likely out of range.
pub fn spoiled(dice: &mut Dice, mut list: Vec<u64>) -> Vec<u64> {
    let rows = at(&list, 1).clamp(1, MOST_ROWS as u64);
    let last = rows - 1;
    let k = dice.pick(&[0, last, dice.0 % rows]) as usize;
    let field = dice.range(0, 5) as usize;
    let place = if field < 2 { field } else { 4 * k + field };
    let most = match field {
        0 => MOST_PROCESSORS,
        1 => MOST_ROWS as u64,
        2 => at(&list, 0),
        3 => LONGEST_SEPARATION,
        _ => at(&list, place - 1),
    };
    if place < list.len() {
        list[place] = if dice.one_in(2) { most.wrapping_add(1) } else { dice.garbage() };
    }
    list
}

/// Lists of every length.
fn lengths(cases: &mut dyn Cases, dice: &mut Dice) {
    let sheet = dice.sheet(MOST_ROWS as u64, Size::Tiny);
    for count in [1, 2, 7, 31, 32] {
        for length in 0..=LONGEST_SHEET_LIST {
            let mut list = sheet.list();
            list[1] = count;
            list.resize(length, 3);
            asked(cases, dice, "sheets handed over, every length", &list);
        }
    }
}

/// Every count of rows and processors, also far out of range.
fn counts(cases: &mut dyn Cases, dice: &mut Dice) {
    let full = dice.sheet(MOST_ROWS as u64, Size::Small).list();
    for count in (0..=40).chain([64, 255, 256, 257, 288, 1 << 32, (1 << 32) + 1, 1 << 63, u64::MAX]) {
        for processors in (0..=66).chain([256, 1 << 32, u64::MAX]) {
            let list = [&[processors, count], &full[2..]].concat();
            asked(cases, dice, "sheets handed over, counts", &list);
        }
    }
}

/// Every number of a full sheet at and past its edges, in a row that counts and in the first that does not.
fn every_number(cases: &mut dyn Cases, dice: &mut Dice) {
    let full = dice.sheet(MOST_ROWS as u64, Size::Small).list();
    for place in 2..full.len() {
        let before = full[if place % 4 == 2 { 0 } else { place - 1 }];
        for value in [0, 1, before, before + 1, LONGEST_SEPARATION, LONGEST_SEPARATION + 1, u64::MAX] {
            let mut list = full.clone();
            list[place] = value;
            asked(cases, dice, "sheets handed over, every number", &list);
            list[1] = (place as u64 - 2) / 4;
            asked(cases, dice, "sheets handed over, every number", &list);
        }
    }
}
