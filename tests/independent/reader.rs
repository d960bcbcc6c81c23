//! The reader of a sheet's bytes, the label of a row, and a sheet spelled.

use crate::number::{refuse, spell, up_to, Refusal};
use crate::rules::{broken, Rule};
use crate::sheet::{Row, Sheet, LONGEST_SEPARATION, MOST_PROCESSORS, MOST_ROWS};

/// The bytes with which a sheet begins.
pub const MARK: &[u8] = b"GSH\x01";
/// The longest label.
pub const LONGEST_LABEL: u64 = 16;
/// The longest sheet.
pub const LONGEST_SHEET: usize = 870;

/// Where a label begins and how long it is.
pub type Part = (usize, usize);

/// The sheet that the bytes spell, and where its labels are.
pub fn read(bytes: &[u8]) -> Result<(Sheet, Vec<Part>), Refusal> {
    if !bytes.starts_with(MARK) {
        return refuse(1, 0);
    }
    let (processors, next) = up_to(bytes, MARK.len(), MOST_PROCESSORS, 4, 4)?;
    let (count, mut next) = up_to(bytes, next, MOST_ROWS as u64, 5, 5)?;
    let (mut rows, mut labels) = (Vec::new(), Vec::new());
    for _ in 0..count {
        let (label, after) = read_label(bytes, next)?;
        let (row, after) = read_row(bytes, after, processors)?;
        rows.push(row);
        labels.push(label);
        next = after;
    }
    if next < bytes.len() && !broken(Rule::TrailingBytes) {
        return refuse(9, next);
    }
    Ok((Sheet { processors, rows }, labels))
}

/// A label: its length, enough bytes, each byte.
fn read_label(bytes: &[u8], first: usize) -> Result<(Part, usize), Refusal> {
    let (length, start) = up_to(bytes, first, LONGEST_LABEL, 6, 6)?;
    let end = start + length as usize;
    if end > bytes.len() {
        return refuse(2, bytes.len());
    }
    match (start..end).find(|place| !(0x21..=0x7e).contains(&bytes[*place])) {
        Some(place) => refuse(6, place),
        None => Ok(((start, length as usize), end)),
    }
}

/// The four numbers of a row.
fn read_row(bytes: &[u8], first: usize, processors: u64) -> Result<(Row, usize), Refusal> {
    let (threads, next) = up_to(bytes, first, processors, 7, 8)?;
    let (separation, next) = up_to(bytes, next, LONGEST_SEPARATION, 7, 8)?;
    let (deadline, next) = up_to(bytes, next, separation, 7, 8)?;
    let (budget, next) = up_to(bytes, next, deadline, 7, 8)?;
    Ok((Row { threads, separation, deadline, budget }, next))
}

/// Where the label of a row is: the whole reader, then 14.
pub fn label(bytes: &[u8], row: u64) -> Result<Part, Refusal> {
    let (_, labels) = read(bytes)?;
    if row >= labels.len() as u64 {
        return refuse(14, 0);
    }
    Ok(labels[if broken(Rule::FirstLabel) { 0 } else { row as usize }])
}

/// The fields of a sheet with these labels, each in its bytes: the mark, m and n, and of each row the label's length, the label
/// and four numbers.
pub fn fields(sheet: &Sheet, labels: &[Vec<u8>]) -> Vec<Vec<u8>> {
    let mut fields = vec![MARK.to_vec(), spell(sheet.processors), spell(sheet.rows.len() as u64)];
    for (row, label) in sheet.rows.iter().zip(labels) {
        fields.extend([spell(label.len() as u64), label.clone()]);
        fields.extend(row.numbers().map(spell));
    }
    fields
}
