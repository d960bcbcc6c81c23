//! Scenarios: written and read ones, damaged, truncated and made up, every short string, and release lists whole and at fault.

use crate::batch::Cases;
use crate::case::Case;
use crate::dice::Dice;
use crate::hand::SHEET_C;
use crate::machine::{fresh, slot};
use crate::number::spell;
use crate::random::{Size, SIZES};
use crate::reader::fields;
use crate::scenario::{write, MARK};
use crate::sheet::{Sheet, LONGEST_SEPARATION, MOST_ROWS};

/// The most entries of a release list here.
const MOST_ENTRIES: u64 = 600;

/// A sheet of two rows whose budgets take one group and two.
fn two_rows() -> Sheet {
    Sheet::of(4, &[[4, 6, 6, 2], [1, 500, 300, 200]])
}

/// The entries of so many slots, none over its budget.
pub fn entries(dice: &mut Dice, sheet: &Sheet, slots: u64) -> Vec<u64> {
    let often = dice.pick(&[1, 2, 2, 4, 40]);
    let entry = |dice: &mut Dice, budget: u64| if dice.one_in(often) { dice.upto(budget, Size::Edge) } else { 0 };
    (0..slots).flat_map(|_| sheet.rows.iter().map(|row| entry(dice, row.budget)).collect::<Vec<u64>>()).collect()
}

/// A random sheet of some rows, and how many slots a list for it may have.
fn sheet(dice: &mut Dice, turn: u64) -> (Sheet, u64) {
    let rows = if turn % 4 == 0 { dice.count() } else { dice.range(1, 5) };
    let sheet = dice.sheet(rows, SIZES[turn as usize % SIZES.len()]);
    let most = if turn % 8 == 0 { MOST_ENTRIES / rows } else { (MOST_ENTRIES / rows).min(8) };
    (sheet, dice.range(0, most))
}

/// A list to be filled with so many entries: as long, longer, or too short.
fn lent(dice: &mut Dice, needed: usize) -> Vec<u64> {
    let length = match dice.bits() % 8 {
        0 => dice.range(0, needed as u64) as usize,
        1 => needed.saturating_sub(1),
        2..=4 => needed + dice.range(1, 40) as usize,
        _ => needed,
    };
    (0..length).map(|_| dice.garbage()).collect()
}

/// A reading of bytes into a list that has about the room for so many entries.
fn reading(cases: &mut dyn Cases, dice: &mut Dice, group: &'static str, sheet: &Sheet, needed: usize, bytes: Vec<u8>) {
    let list = lent(dice, needed);
    cases.add(group, Case::ReadScenario { sheet: dice.handed(sheet), list, bytes });
}

/// Release lists written, and their bytes read: whole, truncated at every length and damaged at every byte.
pub fn files(cases: &mut dyn Cases, dice: &mut Dice, times: u64) {
    for turn in 0..6_000 * times {
        let (sheet, slots) = sheet(dice, turn);
        let releases = entries(dice, &sheet, slots);
        let bytes = write(&sheet, &releases).unwrap_or_default();
        reading(cases, dice, "scenarios", &sheet, releases.len(), bytes);
    }
    for turn in 0..200 * times {
        let (sheet, slots) = sheet(dice, 2 * turn + 1);
        let releases = entries(dice, &sheet, slots);
        let bytes = write(&sheet, &releases).unwrap_or_default();
        for end in 0..bytes.len() {
            reading(cases, dice, "scenarios, truncated", &sheet, releases.len(), bytes[..end].to_vec());
        }
        for at in 0..bytes.len() {
            for new in [bytes[at] ^ 0x80, bytes[at].wrapping_add(1), bytes[at].wrapping_sub(1), 0, dice.byte()] {
                let mut changed = bytes.clone();
                changed[at] = new;
                reading(cases, dice, "scenarios, a byte changed", &sheet, releases.len(), changed);
            }
            let mut inserted = bytes.clone();
            inserted.insert(at, dice.byte());
            reading(cases, dice, "scenarios, a byte inserted", &sheet, releases.len(), inserted);
            let mut deleted = bytes.clone();
            deleted.remove(at);
            reading(cases, dice, "scenarios, a byte deleted", &sheet, releases.len(), deleted);
        }
    }
}

/// The bytes of a number that may be at fault: too long, not the shortest, or larger than what is asked for.
fn odd(dice: &mut Dice, value: u64) -> Vec<u8> {
    match dice.bits() % 12 {
        0 => vec![0x80, 0],
        1 => vec![0xff, 0xff, 0xff, 1],
        2 => vec![0x80 | (value & 0x7f) as u8, 0],
        3 => spell(value + dice.pick(&[1, 2, 128, 16_384])),
        4 => spell(128 * 128 * 128 - 1),
        _ => spell(value),
    }
}

/// Scenarios made up of rows and counts in any order, some of them at fault.
pub fn made_up(cases: &mut dyn Cases, dice: &mut Dice, times: u64) {
    for turn in 0..30_000 * times {
        let (sheet, _) = sheet(dice, turn);
        let (mut bytes, rows) = (MARK.to_vec(), sheet.rows.len() as u64);
        for _ in 0..dice.range(0, 4) {
            let releases = dice.range(0, 3.min(rows));
            let said = releases + dice.pick(&[0, 0, 0, 0, 1]);
            bytes.extend(if dice.one_in(8) { odd(dice, said) } else { spell(said) });
            let mut row = dice.range(0, rows - 1);
            for _ in 0..releases {
                bytes.extend(if dice.one_in(8) { odd(dice, row) } else { spell(row) });
                let budget = sheet.rows[(row % rows) as usize].budget;
                let count = dice.pick(&[1, budget, budget, budget / 2, budget + 1, 0]);
                bytes.extend(if dice.one_in(8) { odd(dice, count) } else { spell(count) });
                row = match dice.bits() % 8 {
                    0 => row,
                    1 => row.saturating_sub(1),
                    2 => rows,
                    _ => row + 1,
                };
            }
        }
        reading(cases, dice, "scenarios, made up", &sheet, 4 * rows as usize, bytes);
    }
}

/// Every string of up to three bytes after the mark, and every wrong byte of the mark.
pub fn strings(cases: &mut dyn Cases, _: &mut Dice, _: u64) {
    let sheet = two_rows().list();
    let mut sweep = |bytes: Vec<u8>| {
        cases.add("scenarios, up to three bytes after the mark", Case::ScenarioSweep { sheet: sheet.clone(), bytes })
    };
    (0..MARK.len()).for_each(|end| sweep(MARK[..end].to_vec()));
    sweep(MARK.to_vec());
    for a in 0..=255 {
        sweep([MARK, &[a]].concat());
        for b in 0..=255 {
            sweep([MARK, &[a, b]].concat());
        }
    }
}

/// Release lists written into buffers long and short: whole, of a wrong length, over a budget; sheets out of range.
pub fn lists(cases: &mut dyn Cases, dice: &mut Dice, times: u64) {
    for turn in 0..12_000 * times {
        let (sheet, slots) = sheet(dice, turn);
        let mut releases = entries(dice, &sheet, slots);
        let long = write(&sheet, &releases).map_or(0, |bytes| bytes.len());
        let mut list = dice.handed(&sheet);
        if turn % 3 == 0 && !releases.is_empty() {
            match dice.bits() % 4 {
                0 => releases.truncate(dice.range(0, releases.len() as u64) as usize),
                1 => list[dice.pick(&[0, 1, 2, 5])] = dice.garbage(),
                _ => {
                    let at = dice.range(0, releases.len() as u64 - 1) as usize;
                    let over = sheet.rows[at % sheet.rows.len()].budget + 1;
                    releases[at] = dice.pick(&[over, over, LONGEST_SEPARATION + 1, u64::MAX]);
                }
            }
        }
        let buffer = dice.room_for(long);
        cases.add("scenarios written", Case::WriteScenario { sheet: list, releases, buffer });
    }
    let largest = Sheet::of(1, &[[1, LONGEST_SEPARATION, LONGEST_SEPARATION, LONGEST_SEPARATION]; MOST_ROWS]);
    for slots in 0..=4 {
        let releases = vec![LONGEST_SEPARATION; slots * MOST_ROWS];
        let long = 4 + slots * (1 + 4 * MOST_ROWS);
        for room in [long.saturating_sub(1), long, long + 1] {
            let buffer = dice.room(room);
            cases.add(
                "scenarios written, the longest",
                Case::WriteScenario { sheet: largest.list(), releases: releases.clone(), buffer },
            );
        }
    }
}

/// The releases of so many slots from the fresh state; one in so many is likely refused.
fn playable(dice: &mut Dice, sheet: &Sheet, slots: u64, wrong: u64) -> Vec<u64> {
    let (mut state, mut releases) = (fresh(sheet), Vec::new());
    for _ in 0..slots {
        let mut list = dice.releases(sheet, &state, wrong);
        list.iter_mut().zip(&sheet.rows).for_each(|(release, row)| *release = (*release).min(row.budget));
        state = slot(sheet, &state, &list, &mut [0; MOST_ROWS]).unwrap_or(state);
        releases.extend(list);
    }
    releases
}

/// A sheet's bytes, and those of a scenario of so many slots for it.
fn pair(dice: &mut Dice, turn: u64, slots: u64) -> (Vec<u8>, Vec<u8>) {
    let rows = if turn % 5 == 0 { dice.count() } else { dice.range(1, 6) };
    let size = dice.pick(&[Size::Tiny, Size::Small, Size::Light, Size::Edge]);
    let sheet = dice.sheet(rows, size);
    let labels = dice.labels(rows);
    let wrong = if turn % 2 == 0 { u64::MAX } else { 40 };
    let releases = playable(dice, &sheet, slots, wrong);
    (fields(&sheet, &labels).concat(), write(&sheet, &releases).unwrap_or_default())
}

/// So many pairs of a sheet's and a scenario's bytes, and some by hand: files that play, damaged and truncated ones, and files that are
/// much longer than what a program reads at once.
pub fn pairs(dice: &mut Dice, count: u64) -> Vec<(Vec<u8>, Vec<u8>)> {
    let mut pairs: Vec<(Vec<u8>, Vec<u8>)> = [&b""[..], b"GSC", MARK, b"GSC\x01\x02\x00\x01\x01\x03\x00\x01\x00\x01\x00"]
        .into_iter()
        .flat_map(|scenario| [(SHEET_C.to_vec(), scenario.to_vec()), (MARK.to_vec(), scenario.to_vec())])
        .collect();
    for turn in 0..count {
        let long = turn % 16 == 0;
        let slots = if long { dice.range(1_000, 6_000) } else { dice.range(0, 60) };
        let (mut sheet, mut scenario) = pair(dice, turn, slots);
        if turn % 3 == 0 && !scenario.is_empty() {
            let at = dice.range(0, scenario.len() as u64 - 1) as usize;
            scenario[at] = dice.byte();
        }
        if turn % 7 == 0 {
            scenario.truncate(dice.range(0, scenario.len() as u64) as usize);
        }
        if turn % 23 == 0 {
            let at = dice.range(0, sheet.len() as u64 - 1) as usize;
            sheet[at] = dice.byte();
        }
        pairs.push((sheet, scenario));
    }
    pairs.extend(edges(dice));
    pairs
}

/// Files whose slots and faults lie at the places where a program that reads some thousands of bytes at once reads again.
fn edges(dice: &mut Dice) -> Vec<(Vec<u8>, Vec<u8>)> {
    let sheet = Sheet::of(1, &[[1, LONGEST_SEPARATION, LONGEST_SEPARATION, LONGEST_SEPARATION]; MOST_ROWS]);
    let labels = dice.labels(MOST_ROWS as u64);
    let bytes = fields(&sheet, &labels).concat();
    let last: Vec<u8> = (0..MOST_ROWS as u64).flat_map(|row| [spell(row), spell(LONGEST_SEPARATION)].concat()).collect();
    let mut edges = Vec::new();
    for empty in (3_800..4_200).step_by(23).chain(8_000..8_004) {
        let front = [MARK, &vec![0; empty]].concat();
        let whole = [&front[..], &[MOST_ROWS as u8], &last].concat();
        let again = [&front[..], &[MOST_ROWS as u8 + 1], &last, &[0x80, 0x80, 1]].concat();
        edges.push((bytes.clone(), whole[..whole.len() - 1].to_vec()));
        edges.extend([whole, again].map(|scenario| (bytes.clone(), scenario)));
    }
    edges
}
