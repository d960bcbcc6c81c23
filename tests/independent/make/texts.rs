//! Verdicts and green: legal sheets and damaged ones, with text buffers long and short.

use super::sheets::longest;
use crate::batch::Cases;
use crate::case::Case;
use crate::dice::Dice;
use crate::hand::SHEET_C;
use crate::random::Size;
use crate::reader::{fields, MARK};
use crate::sheet::fixed;
use crate::text::verdict;

/// Texts into buffers with bytes before and after them, and green on the same bytes.
pub fn all(cases: &mut dyn Cases, dice: &mut Dice, times: u64) {
    for bytes in inputs(dice, 12_000 * times) {
        let long = verdict(&bytes).len();
        let room = match dice.range(0, 30) {
            0..=4 => dice.range(0, long as u64) as usize,
            5..=9 => long - 1,
            10..=14 => long + dice.range(1, 300) as usize,
            15 => long + dice.range(1, 10_000) as usize,
            _ => long,
        };
        cases.add("verdicts", Case::Verdict { text: dice.room(room), bytes: bytes.clone() });
        cases.add("green", Case::Green { bytes });
    }
    for room in 0..=40 {
        cases.add("verdicts, every short buffer", Case::Verdict { text: dice.room(room), bytes: SHEET_C.to_vec() });
        cases.add("verdicts, every short buffer", Case::Verdict { text: dice.room(room), bytes: MARK.to_vec() });
    }
}

/// So many inputs, and some by hand: sheets that hold and that fail, damaged ones, and bytes that are longer than any sheet.
pub fn inputs(dice: &mut Dice, count: u64) -> Vec<Vec<u8>> {
    let longest = longest();
    let mut inputs = vec![vec![], MARK.to_vec(), SHEET_C.to_vec(), longest.clone()];
    for more in [1, 2, 200] {
        inputs.push([&longest[..], &vec![b'!'; more]].concat());
    }
    for sheet in fixed() {
        let labels = dice.labels(sheet.rows.len() as u64);
        inputs.push(fields(&sheet, &labels).concat());
    }
    for turn in 0..count {
        let rows = dice.count();
        let mut bytes = dice.fields(rows, [Size::Light, Size::Tiny, Size::Light, Size::Small][turn as usize % 4]).concat();
        if turn % 3 == 0 {
            let at = dice.range(0, bytes.len() as u64 - 1) as usize;
            bytes[at] = dice.byte();
        }
        if turn % 17 == 0 {
            bytes.truncate(dice.range(0, bytes.len() as u64) as usize);
        }
        inputs.push(bytes);
    }
    inputs
}
