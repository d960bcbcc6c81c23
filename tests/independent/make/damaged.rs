//! Legal sheets damaged at every byte and truncated at every length.

use super::sheets::sheet;
use crate::batch::Cases;
use crate::case::Case;
use crate::dice::Dice;
use crate::hand::SHEET_C;
use crate::random::SIZES;

/// Some hundreds of sheets: truncated at every length, extended, and with a byte changed, inserted, deleted and swapped at every place.
pub fn all(cases: &mut dyn Cases, dice: &mut Dice, times: u64) {
    for turn in 0..400 * times {
        let rows = if turn % 20 == 19 { dice.range(7, 32) } else { dice.range(1, 5) };
        let bytes = dice.fields(rows, SIZES[turn as usize % SIZES.len()]).concat();
        for end in 0..bytes.len() {
            sheet(cases, dice, "sheets, truncated", rows as usize, &[], &bytes[..end]);
        }
        for more in 1..6 {
            let tail = dice.bytes(more);
            sheet(cases, dice, "sheets, extended", rows as usize, &[0, rows], &[&bytes[..], &tail].concat());
        }
        for at in 0..bytes.len() {
            for (group, damaged) in damages(dice, &bytes, at) {
                let asked: &[u64] = if dice.one_in(4) { &[dice.range(0, rows)] } else { &[] };
                sheet(cases, dice, group, rows as usize, asked, &damaged);
            }
        }
    }
    for at in 0..SHEET_C.len() {
        for new in 0..=255 {
            let mut bytes = SHEET_C.to_vec();
            bytes[at] = new;
            cases.add("sheets, every byte at every place", Case::Read { list: vec![7; 10], bytes });
        }
    }
}

/// The bytes damaged at a place in several ways.
pub fn damages(dice: &mut Dice, bytes: &[u8], at: usize) -> Vec<(&'static str, Vec<u8>)> {
    let old = bytes[at];
    let near = dice.pick(&[old.wrapping_add(1), old.wrapping_sub(1), 0, 0x20, 0x7f, 0xff]);
    let mut damaged = Vec::new();
    for new in [old ^ 0x80, near, dice.byte()] {
        let mut changed = bytes.to_vec();
        changed[at] = new;
        damaged.push(("sheets, a byte changed", changed));
    }
    let mut inserted = bytes.to_vec();
    inserted.insert(at, dice.byte());
    damaged.push(("sheets, a byte inserted", inserted));
    let mut deleted = bytes.to_vec();
    deleted.remove(at);
    damaged.push(("sheets, a byte deleted", deleted));
    let mut swapped = bytes.to_vec();
    swapped.swap(at, (at + 1) % bytes.len());
    damaged.push(("sheets, two bytes swapped", swapped));
    damaged
}
