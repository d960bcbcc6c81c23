//! Where every label of a sheet's bytes lies: legal sheets, truncated and damaged ones, and lists of every length.

use super::damaged::damages;
use super::sheets::longest;
use crate::batch::Cases;
use crate::case::Case;
use crate::dice::Dice;
use crate::hand::SHEET_C;
use crate::random::SIZES;
use crate::reader::MARK;
use crate::sheet::MOST_ROWS;

/// Lists of every length, random legal sheets, and some dozens of sheets truncated and damaged at every byte.
pub fn all(cases: &mut dyn Cases, dice: &mut Dice, times: u64) {
    every_list(cases);
    for turn in 0..5_000 * times {
        let rows = dice.count();
        let bytes = dice.fields(rows, SIZES[turn as usize % SIZES.len()]).concat();
        ask(cases, dice, "all labels", rows, &bytes);
    }
    for turn in 0..40 * times {
        let rows = if turn % 20 == 19 { dice.range(7, 32) } else { dice.range(1, 4) };
        let bytes = dice.fields(rows, SIZES[turn as usize % SIZES.len()]).concat();
        for at in 0..bytes.len() {
            ask(cases, dice, "all labels, truncated", rows, &bytes[..at]);
            for (_, damaged) in damages(dice, &bytes, at) {
                ask(cases, dice, "all labels, damaged", rows, &damaged);
            }
        }
        let tail = dice.bytes(1);
        ask(cases, dice, "all labels, extended", rows, &[bytes, tail].concat());
    }
}

/// Asks where the labels lie, with a list for so many rows: often as long, sometimes longer, seldom too short.
fn ask(cases: &mut dyn Cases, dice: &mut Dice, group: &'static str, rows: u64, bytes: &[u8]) {
    let list = dice.lent(2 * rows as usize);
    cases.add(group, Case::Labels { list, bytes: bytes.to_vec() });
}

/// Lists of every length, for sheets of one row, of two and of the most, and for bytes that are no sheet.
fn every_list(cases: &mut dyn Cases) {
    let one = b"GSH\x01\x01\x01\x01~\x01\x01\x01\x01".to_vec();
    for bytes in [one, SHEET_C.to_vec(), longest(), MARK.to_vec(), SHEET_C[..20].to_vec(), vec![]] {
        for length in 0..=2 * MOST_ROWS + 4 {
            cases.add("all labels, every list", Case::Labels { list: vec![7; length], bytes: bytes.clone() });
        }
    }
}
