//! The writer of a sheet: from its numbers, and where the label of each row lies in some bytes, to its bytes.

use crate::number::{refuse, spell, Refusal};
use crate::reader::{read, LONGEST_LABEL, MARK};
use crate::rules::{broken, Rule};
use crate::sheet::{at, Row, Sheet, MOST_ROWS};

/// The lowest and the highest byte of a label.
pub const LOWEST: u8 = 0x21;
pub const HIGHEST: u8 = 0x7e;

/// Of each row of a sheet's bytes where its label starts, and how long it is: the list that the writer takes.
pub fn labels(bytes: &[u8]) -> Result<Vec<u64>, Refusal> {
    let (_, parts) = read(bytes)?;
    let early = broken(Rule::LabelAtLength) as usize;
    Ok(parts.iter().flat_map(|(start, length)| [(start - early) as u64, *length as u64]).collect())
}

/// The part of the bytes that begins at a start and is so long, or nothing where it does not lie in them.
fn part(bytes: &[u8], start: u64, length: u64) -> Option<&[u8]> {
    match start.checked_add(length) {
        Some(end) if broken(Rule::PartCut) => bytes.get(start as usize..bytes.len().min(end as usize)),
        Some(end) => bytes.get(start as usize..end as usize),
        None if broken(Rule::PartWraps) => bytes.get(..length as usize),
        None => None,
    }
}

/// Whether this is a label: 1 to 16 bytes, each of them plain.
fn proper(label: &[u8]) -> bool {
    let least = !broken(Rule::EmptyLabel) as usize;
    let most = LONGEST_LABEL as usize + broken(Rule::LabelOfSeventeen) as usize;
    let (lowest, highest) = (LOWEST - broken(Rule::BlankInLabel) as u8, HIGHEST + broken(Rule::LabelPastTilde) as u8);
    (least..=most).contains(&label.len()) && label.iter().all(|byte| (lowest..=highest).contains(byte))
}

/// The labels of so many rows, or 6 at the first row that has none.
fn handed<'a>(rows: usize, bytes: &'a [u8], labels: &[u64]) -> Result<Vec<&'a [u8]>, Refusal> {
    let label = |k: usize| part(bytes, at(labels, 2 * k), at(labels, 2 * k + 1)).filter(|label| proper(label));
    let mut found = (0..rows).map(label);
    let fault = if broken(Rule::LastRowAtFault) {
        found.rposition(|label| label.is_none())
    } else {
        found.position(|label| label.is_none())
    };
    match fault {
        Some(row) => refuse(6, row),
        None => Ok((0..rows).filter_map(label).collect()),
    }
}

/// A number of the sheet in its bytes.
fn written_number(value: u64) -> Vec<u8> {
    let mut bytes = spell(value);
    if broken(Rule::LongForm) && bytes.len() == 1 {
        bytes = vec![bytes[0] | 0x80, 0];
    }
    bytes
}

/// The bytes of a row: the label's length, the label, threads, separation, deadline and budget.
fn row_bytes(row: &Row, label: &[u8]) -> Vec<u8> {
    let Row { threads, separation, deadline, budget } = *row;
    let last = if broken(Rule::BudgetFirst) { [budget, deadline] } else { [deadline, budget] };
    let mut bytes = written_number(label.len() as u64);
    bytes.extend(label);
    bytes.extend([threads, separation].into_iter().chain(last).flat_map(written_number));
    bytes
}

/// The bytes of a sheet: 10 where its numbers are not in their ranges, then 6 at the first row whose label is at fault.
pub fn sheet_bytes(sheet: &[u64], bytes: &[u8], labels: &[u64]) -> Result<Vec<u8>, Refusal> {
    if broken(Rule::LabelsBeforeSheet) {
        handed(at(sheet, 1).min(MOST_ROWS as u64) as usize, bytes, labels)?;
    }
    let sheet = Sheet::handed(sheet)?;
    let rows = sheet.rows.len();
    if broken(Rule::MissingLabels) && labels.len() < 2 * rows {
        return refuse(15, 0);
    }
    let labels = handed(rows, bytes, labels)?;
    let mut written = [MARK.to_vec(), written_number(sheet.processors), written_number(rows as u64)].concat();
    sheet.rows.iter().zip(labels).for_each(|(row, label)| written.extend(row_bytes(row, label)));
    Ok(written)
}

/// Writes a sheet's bytes into a buffer, and tells how many they are: 10, 6, then 15; beside a refusal nothing is written, and
/// the buffer past the bytes stays.
pub fn write(sheet: &[u64], bytes: &[u8], labels: &[u64], buffer: &mut [u8]) -> Result<u64, Refusal> {
    if broken(Rule::RoomBeforeLabels) && buffer.is_empty() && Sheet::handed(sheet).is_ok() {
        return refuse(15, 0);
    }
    let written = sheet_bytes(sheet, bytes, labels);
    if broken(Rule::MarkWritten) && written.is_err() && buffer.len() >= MARK.len() {
        buffer[..MARK.len()].copy_from_slice(MARK);
    }
    let written = written?;
    if buffer.len() < written.len() {
        if broken(Rule::FrontWritten) {
            buffer.copy_from_slice(&written[..buffer.len()]);
        }
        return refuse(15, 0);
    }
    let (front, rest) = buffer.split_at_mut(written.len());
    front.copy_from_slice(&written);
    if broken(Rule::PastBytesCleared) {
        rest.fill(0);
    }
    Ok(written.len() as u64)
}
