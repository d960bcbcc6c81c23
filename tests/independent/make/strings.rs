//! Every short string: with the mark and without, and at every place of a sheet.

use crate::batch::Cases;
use crate::case::Case;
use crate::dice::Dice;
use crate::hand::SHEET_C;
use crate::reader::MARK;

/// Every string up to three bytes after the mark, up to two without it, two at every place of a sheet, and every wrong byte in the mark.
pub fn all(cases: &mut dyn Cases, _: &mut Dice, _: u64) {
    for whole in [&b""[..], MARK] {
        cases.add("strings, none", Case::Read { list: vec![7; 130], bytes: whole.to_vec() });
    }
    short(cases);
    marks(cases);
    inside(cases);
    after_mark(cases);
}

/// The strings that begin with these bytes and have any one byte more.
fn sweep(cases: &mut dyn Cases, group: &'static str, parts: &[&[u8]]) {
    cases.add(group, Case::Sweep { bytes: parts.concat() });
}

/// Strings up to two bytes.
fn short(cases: &mut dyn Cases) {
    sweep(cases, "strings, up to two bytes", &[]);
    for a in 0..=255 {
        sweep(cases, "strings, up to two bytes", &[&[a]]);
    }
}

/// Strings as long as the mark and longer, wrong in one byte of it.
fn marks(cases: &mut dyn Cases) {
    sweep(cases, "strings, the mark's last byte", &[&MARK[..3]]);
    for at in 0..MARK.len() {
        for a in 0..=255 {
            let mut mark = MARK.to_vec();
            mark[at] = a;
            sweep(cases, "strings, a byte of the mark", &[&mark]);
            sweep(cases, "strings, a byte of the mark", &[&mark, &SHEET_C[4..SHEET_C.len() - 1]]);
        }
    }
}

/// Any two bytes after every part of a sheet.
fn inside(cases: &mut dyn Cases) {
    for sheet in [SHEET_C, b"GSH\x01\x40\x01\x01~\x40\x80\x80\x3d\x80\x80\x01\x80\x01"] {
        for end in MARK.len() + 1..=sheet.len() {
            for a in 0..=255 {
                sweep(cases, "strings, two bytes inside a sheet", &[&sheet[..end], &[a]]);
            }
        }
    }
}

/// Strings up to three bytes after the mark.
fn after_mark(cases: &mut dyn Cases) {
    sweep(cases, "strings, up to three bytes after the mark", &[MARK]);
    for a in 0..=255 {
        sweep(cases, "strings, up to three bytes after the mark", &[MARK, &[a]]);
    }
    for a in 0..=255 {
        for b in 0..=255 {
            sweep(cases, "strings, up to three bytes after the mark", &[MARK, &[a, b]]);
        }
    }
}
