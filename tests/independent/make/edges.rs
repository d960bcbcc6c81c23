//! Sheets written at the edges: label lengths, every byte of a label, parts at and past the end of the bytes, and lists and buffers of
//! every length.

use super::sheets::longest;
use super::written::Plan;
use crate::batch::Cases;
use crate::dice::Dice;
use crate::hand::SHEET_C;
use crate::random::Size;
use crate::reader::{LONGEST_LABEL, LONGEST_SHEET};
use crate::sheet::{fixed, MOST_ROWS};

/// Lengths that a label may have and may not.
const LENGTHS: [u64; 17] =
    [0, 1, 2, 15, 16, 17, 18, 32, 255, 256, 257, 272, (1 << 32) + 1, 1 << 63, u64::MAX - 15, u64::MAX - 1, u64::MAX];

/// The counts of rows that are asked.
const COUNTS: [u64; 4] = [1, 2, 5, MOST_ROWS as u64];

/// Every edge.
pub fn all(cases: &mut dyn Cases, dice: &mut Dice, _: u64) {
    lengths(cases, dice);
    every_byte(cases, dice);
    places(cases, dice);
    lists(cases, dice);
    buffers(cases, dice);
}

/// A sheet of so many rows, whose labels of three bytes overlap in forty plain ones.
fn plan(dice: &mut Dice, rows: u64) -> Plan {
    let sheet = dice.sheet(rows, Size::Edge).list();
    Plan { sheet, labels: (0..rows).flat_map(|k| [k, 3]).collect(), bytes: (b'A'..).take(40).collect() }
}

/// Asks for a plan written into a buffer that has room for it, and more.
fn ask(cases: &mut dyn Cases, dice: &mut Dice, group: &'static str, plan: &Plan) {
    let buffer = dice.room(plan.long() + 9);
    plan.ask(cases, dice, group, buffer);
}

/// Each length of the label of each row, in few bytes and in many, from a place inside them and up to their very end.
fn lengths(cases: &mut dyn Cases, dice: &mut Dice) {
    for (rows, long) in COUNTS.into_iter().flat_map(|rows| [(rows, 40), (rows, 600)]) {
        let mut whole = plan(dice, rows);
        whole.bytes.resize(long, b'~');
        for row in 0..rows as usize {
            for length in LENGTHS {
                let mut plan = whole.clone();
                plan.labels[2 * row + 1] = length;
                ask(cases, dice, "sheets written, label lengths", &plan);
                plan.labels[2 * row] = (plan.bytes.len() as u64).saturating_sub(length);
                ask(cases, dice, "sheets written, label lengths", &plan);
            }
        }
    }
}

/// Every byte at the first, a middle and the last place of a label, and on either side of one.
fn every_byte(cases: &mut dyn Cases, dice: &mut Dice) {
    for length in [1, 2, 3, LONGEST_LABEL] {
        let mut places = vec![0, 1, 1 + length / 2, length, length + 1];
        places.dedup();
        for place in places {
            for (row, value) in (0..2).flat_map(|row| (0..=255).map(move |value| (row, value))) {
                let mut bytes = [b'!'; 24];
                bytes[place as usize] = value;
                let mut plan = Plan { sheet: fixed()[2].list(), labels: vec![20, 4, 20, 4], bytes: bytes.to_vec() };
                plan.labels[2 * row..2 * row + 2].copy_from_slice(&[1, length]);
                ask(cases, dice, "sheets written, every byte of a label", &plan);
            }
        }
    }
}

/// Parts that begin and end inside the bytes, at their end and past it, also where a start and a length add up to more than a
/// number holds.
fn places(cases: &mut dyn Cases, dice: &mut Dice) {
    let bytes: Vec<u8> = (b'A'..).take(40).collect();
    for long in [0, 1, 5, 16, 17, 40_u64] {
        let near = (0..=3).chain(long.saturating_sub(3)..=long + 2).chain([long.saturating_sub(16), long.saturating_sub(17)]);
        let far = [1 << 32, (1 << 63) - 1, 1 << 63].into_iter().chain(u64::MAX - 17..=u64::MAX);
        for start in near.chain(far) {
            let round = [0, 1, long].map(|end| end.wrapping_sub(start));
            for length in [0, 1, 2, 15, 16, 17, 1 << 32, 1 << 63, u64::MAX].into_iter().chain(round) {
                let labels = vec![start, length];
                let plan = Plan { sheet: fixed()[5].list(), labels, bytes: bytes[..long as usize].to_vec() };
                ask(cases, dice, "sheets written, parts", &plan);
            }
        }
    }
}

/// Lists of labels and of numbers of every length.
fn lists(cases: &mut dyn Cases, dice: &mut Dice) {
    for rows in COUNTS {
        let whole = plan(dice, rows);
        for length in 0..=whole.labels.len() + 3 {
            let mut plan = whole.clone();
            plan.labels.resize(length, 3);
            ask(cases, dice, "sheets written, every list", &plan);
        }
        for length in 0..=whole.sheet.len() + 5 {
            let mut plan = whole.clone();
            plan.sheet.resize(length, 3);
            ask(cases, dice, "sheets written, every list", &plan);
        }
    }
}

/// Buffers of every length up to what is needed, and some more; the longest sheet is the last.
fn buffers(cases: &mut dyn Cases, dice: &mut Dice) {
    assert_eq!(longest().len(), LONGEST_SHEET, "the longest sheet");
    let five = plan(dice, 5);
    for plan in [Plan::read(SHEET_C.to_vec()), five, Plan::read(longest())] {
        for long in 0..=plan.long() + 16 {
            let buffer = dice.room(long);
            plan.ask(cases, dice, "sheets written, every buffer", buffer);
        }
    }
}
