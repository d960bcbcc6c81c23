//! The scenario file: read into a release list slot by slot, and written from one.

use crate::number::{number, refuse, spell, up_to, Refusal};
use crate::rules::{broken, Rule};
use crate::sheet::Sheet;

/// The mark of a scenario.
pub const MARK: &[u8] = b"GSC\x01";

/// One slot at a place: an entry for each row, and the place after the slot.
fn slot(sheet: &Sheet, bytes: &[u8], at: usize) -> Result<(Vec<u64>, usize), Refusal> {
    let mut entries = vec![0; sheet.rows.len()];
    let (releases, mut at) = number(bytes, at)?;
    let mut above = 0;
    for _ in 0..releases {
        let (row, next) = number(bytes, at)?;
        let order = if broken(Rule::RepeatedRow) { row + 1 < above } else { row < above };
        let Some(numbers) = usize::try_from(row).ok().and_then(|row| sheet.rows.get(row)) else {
            return refuse(if broken(Rule::NoRowIsOrder) { 20 } else { 14 }, at);
        };
        if order {
            return refuse(20, at);
        }
        let (count, after) = match up_to(bytes, next, numbers.budget, 12, 12) {
            Err(_) if broken(Rule::ZeroCount) && bytes.get(next) == Some(&0) => (0, next + 1),
            read => read?,
        };
        entries[row as usize] = count;
        (above, at) = (row + 1, after);
    }
    Ok((entries, at))
}

/// The slots of a scenario, each with an entry for each row of the sheet.
pub fn read(sheet: &Sheet, bytes: &[u8]) -> Result<Vec<Vec<u64>>, Refusal> {
    if !bytes.starts_with(MARK) {
        return refuse(1, 0);
    }
    let (mut slots, mut at) = (Vec::new(), MARK.len());
    while at < bytes.len() {
        let (entries, next) = slot(sheet, bytes, at)?;
        slots.push(entries);
        at = next;
    }
    Ok(slots)
}

/// The bytes of a slot.
fn slot_bytes(entries: &[u64]) -> Vec<u8> {
    let releases = entries.iter().filter(|count| **count > 0).count() as u64;
    let mut bytes = spell(if broken(Rule::OneReleaseShort) { releases.saturating_sub(1) } else { releases });
    for (row, count) in entries.iter().enumerate().filter(|(_, count)| **count > 0) {
        bytes.extend(spell(row as u64));
        bytes.extend(spell(*count));
    }
    bytes
}

/// The scenario's bytes of a release list: 11, then 12 at the row of the first entry that is over its budget.
pub fn write(sheet: &Sheet, releases: &[u64]) -> Result<Vec<u8>, Refusal> {
    let n = sheet.rows.len();
    if releases.len() % n != 0 {
        return refuse(11, 0);
    }
    if let Some(place) = (0..releases.len()).find(|i| releases[*i] > sheet.rows[i % n].budget) {
        return refuse(12, if broken(Rule::PlaceInList) { place } else { place % n });
    }
    let mut bytes = MARK.to_vec();
    releases.chunks(n).for_each(|entries| bytes.extend(slot_bytes(entries)));
    Ok(bytes)
}
