//! Legal sheets with one number in another form or at an extreme of its range.

use super::sheets::sheet;
use crate::batch::Cases;
use crate::dice::Dice;
use crate::number::{number, spell};
use crate::random::SIZES;

/// The fields before the first row, and of each row.
const HEAD: usize = 3;
const ROW: usize = 6;

/// Extremes of the fields and of the number itself, and one more and one less.
const EXTREMES: [u64; 22] = [
    0, 1, 2, 15, 16, 17, 31, 32, 33, 63, 64, 65, 127, 128, 129, 16_383, 16_384, 999_999, 1_000_000, 1_000_001, 2_097_150,
    2_097_151,
];

/// Every number of some sheets, in over-long forms and at extremes.
pub fn all(cases: &mut dyn Cases, dice: &mut Dice, times: u64) {
    for turn in 0..150 * times {
        let rows = if turn % 15 == 14 { dice.range(6, 32) } else { dice.range(1, 4) };
        let fields = dice.fields(rows, SIZES[turn as usize % SIZES.len()]);
        for at in (1..fields.len()).filter(|at| *at < HEAD || (at - HEAD) % ROW != 1) {
            let (value, _) = number(&fields[at], 0).unwrap_or((0, 0));
            for form in forms(value) {
                changed(cases, dice, "sheets, a number over-long", &fields, at, form);
            }
            for value in EXTREMES.into_iter().chain([value + 1, value.saturating_sub(1)]) {
                changed(cases, dice, "sheets, an extreme", &fields, at, spell(value));
            }
        }
    }
}

/// A sheet with one field in other bytes.
fn changed(cases: &mut dyn Cases, dice: &mut Dice, group: &'static str, fields: &[Vec<u8>], at: usize, bytes: Vec<u8>) {
    let mut fields = fields.to_vec();
    fields[at] = bytes;
    let rows = (fields.len() - HEAD) / ROW;
    sheet(cases, dice, group, rows, &[], &fields.concat());
}

/// A number in forms that are not its shortest, and groups that never end.
fn forms(value: u64) -> Vec<Vec<u8>> {
    let mut open = spell(value);
    *open.last_mut().expect("a number has a group") |= 0x80;
    let mut forms =
        vec![open.clone(), vec![0x80], vec![0x80; 2], vec![0x80; 3], vec![0xff; 3], vec![0x80, 0x00], vec![0x80, 0x80, 0x00]];
    for tail in [&[0x00][..], &[0x80, 0x00], &[0x80, 0x80, 0x00], &[0x80], &[0x80, 0x80], &[0x01], &[0x80, 0x01]] {
        forms.push([&open[..], tail].concat());
    }
    forms
}
