//! Legal sheets in bytes, read into lists of every length, with their labels.

use crate::batch::Cases;
use crate::case::Case;
use crate::dice::Dice;
use crate::random::SIZES;
use crate::reader::{fields, LONGEST_SHEET};
use crate::sheet::{Sheet, MOST_ROWS};

/// Random legal sheets, sheets by hand, and the longest one.
pub fn all(cases: &mut dyn Cases, dice: &mut Dice, times: u64) {
    few(cases, dice, 10_000 * times);
    for turn in 0..10_000 * times {
        let rows = dice.count();
        let bytes = dice.fields(rows, SIZES[turn as usize % SIZES.len()]).concat();
        let mut asked = vec![0, rows - 1, rows, dice.range(0, rows - 1), dice.range(0, 40), dice.garbage()];
        if turn % 50 == 0 {
            asked = (0..=40).chain([255, 256, 1 << 32, 1 << 63, u64::MAX]).collect();
        }
        sheet(cases, dice, "sheets, legal", rows as usize, &asked, &bytes);
    }
    let bytes = longest();
    let asked: Vec<u64> = (0..=33).collect();
    for _ in 0..20 {
        sheet(cases, dice, "sheets, the longest", MOST_ROWS, &[], &bytes);
    }
    sheet(cases, dice, "sheets, the longest", MOST_ROWS, &asked, &bytes);
    sheet(cases, dice, "sheets, the longest", MOST_ROWS, &asked, &[&bytes[..], b"!"].concat());
    for end in 0..bytes.len() {
        sheet(cases, dice, "sheets, the longest", MOST_ROWS, &[0], &bytes[..end]);
    }
}

/// The longest sheet, which has the longest verdict: every number in its most bytes, every label in its longest.
pub fn longest() -> Vec<u8> {
    let sheet = Sheet::of(64, &[[1, 1_000_000, 1_000_000, 1_000_000]; MOST_ROWS]);
    let bytes = fields(&sheet, &vec![vec![b'~'; 16]; MOST_ROWS]).concat();
    assert_eq!(bytes.len(), LONGEST_SHEET, "the longest sheet");
    bytes
}

/// A sheet that is read into a list for so many rows, and some of its labels.
pub fn sheet(cases: &mut dyn Cases, dice: &mut Dice, group: &'static str, rows: usize, asked: &[u64], bytes: &[u8]) {
    let list = dice.lent(2 + 4 * rows);
    cases.add(group, Case::Read { list, bytes: bytes.to_vec() });
    for row in asked {
        cases.add("labels", Case::Label { row: *row, bytes: bytes.to_vec() });
    }
}

/// One row of few bytes that are often at an edge, and every small row.
fn few(cases: &mut dyn Cases, dice: &mut Dice, count: u64) {
    for row in 0..4_000_u64 {
        let row = [row % 4, row / 4 % 10, row / 40 % 10, row / 400].map(|number| number as u8);
        sheet(cases, dice, "sheets, one small row", 1, &[], &[b"GSH\x01\x02\x01\x01a", &row[..]].concat());
    }
    for _ in 0..count {
        let m = dice.range(1, 64) as u8;
        let length = dice.range(0, 10) as usize;
        let tail: Vec<u8> = (0..length).map(|_| dice.pick(&[0, 1, 1, 2, 3, 16, 17, 0x21, 0x7e, 0x7f, 0x80, 0xff, m])).collect();
        sheet(cases, dice, "sheets, few bytes", 1, &[], &[b"GSH\x01", &[m, 1][..], &tail].concat());
    }
}
