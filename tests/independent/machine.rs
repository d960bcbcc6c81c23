//! The slot machine: the fresh state, one slot, a run of slots and the margin of a row.

use crate::number::{refuse, Refusal};
use crate::rules::{broken, Rule};
use crate::sheet::{at, Row, Sheet};

/// What is known of one row between slots.
#[derive(Clone, Copy, Debug, PartialEq)]
pub struct Record {
    pub remaining: u64,
    pub since: u64,
}

/// The state in which no row has a job and each may be released.
pub fn fresh(sheet: &Sheet) -> Vec<Record> {
    let since = |row: &Row| if broken(Rule::FreshSinceZero) { 0 } else { row.separation };
    sheet.rows.iter().map(|row| Record { remaining: 0, since: since(row) }).collect()
}

/// The list that hands a state over.
pub fn listed(state: &[Record]) -> Vec<u64> {
    state.iter().flat_map(|record| [record.remaining, record.since]).collect()
}

/// Whether a record is legal for its row.
fn fits(row: &Row, record: &Record) -> bool {
    (1..=row.separation).contains(&record.since)
        && record.remaining <= row.budget
        && (record.remaining == 0 || record.since < row.deadline)
}

/// The records that a list hands over, or 16 where one is not legal or a number past them is not zero.
pub fn handed(sheet: &Sheet, list: &[u64]) -> Result<Vec<Record>, Refusal> {
    let record = |k: usize| Record { remaining: at(list, 2 * k), since: at(list, 2 * k + 1) };
    let state: Vec<Record> = (0..sheet.rows.len()).map(record).collect();
    let spare = list.iter().skip(2 * state.len()).all(|number| *number == 0) || broken(Rule::SpareRecords);
    if spare && sheet.rows.iter().zip(&state).all(|(row, record)| fits(row, record)) {
        Ok(state)
    } else {
        refuse(16, 0)
    }
}

/// The releases, rows from the top: 12 where one is over its budget, 13 where it is too soon.
fn release(sheet: &Sheet, state: &mut [Record], releases: &[u64]) -> Result<(), Refusal> {
    for (k, (row, record)) in sheet.rows.iter().zip(state).enumerate() {
        let (over, soon) = (releases[k] > row.budget, releases[k] > 0 && record.since < row.separation);
        if over && !(soon && broken(Rule::SoonBeforeBudget)) {
            return refuse(12, k);
        }
        if soon {
            return refuse(13, k);
        }
        if releases[k] > 0 {
            *record = Record { remaining: releases[k], since: 0 };
        }
    }
    Ok(())
}

/// The slot after the releases: the rows run from the top, age, finish and miss; their codes.
fn work(sheet: &Sheet, state: &mut [Record]) -> Vec<u8> {
    let mut free = sheet.processors;
    let mut codes = Vec::new();
    for (row, record) in sheet.rows.iter().zip(state) {
        let job = record.remaining > 0;
        let runs = job && row.threads <= free;
        if runs {
            free -= row.threads;
            record.remaining -= 1;
        } else if job && broken(Rule::FirstMisfitStops) {
            free = 0;
        }
        record.since += (record.since < row.separation || broken(Rule::SincePastSeparation)) as u64;
        let due = record.since == row.deadline;
        codes.push(match (job, record.remaining) {
            (false, _) => 0,
            (true, 0) if !(due && broken(Rule::MissBeforeFinish)) => 3,
            _ if due => 4,
            _ => 1 + runs as u8,
        });
        if job && due {
            record.remaining = 0;
        }
    }
    codes
}

/// One slot of a legal state, with n releases and room for n codes.
fn advance(sheet: &Sheet, state: &[Record], releases: &[u64], buffer: &mut [u8]) -> Result<Vec<Record>, Refusal> {
    let mut next = state.to_vec();
    release(sheet, &mut next, releases)?;
    let codes = work(sheet, &mut next);
    buffer[..codes.len()].copy_from_slice(&codes);
    Ok(next)
}

/// One slot: 11, 15, then the slot; the next state, with the codes in the front of the buffer.
pub fn slot(sheet: &Sheet, state: &[Record], releases: &[u64], buffer: &mut [u8]) -> Result<Vec<Record>, Refusal> {
    if releases.len() != sheet.rows.len() {
        return refuse(11, 0);
    }
    if buffer.len() < releases.len() {
        return refuse(15, 0);
    }
    advance(sheet, state, releases, buffer)
}

/// What a run answers: the slots done, the refusal that ended it and the state after them.
pub struct Ran {
    pub done: u64,
    pub refusal: Option<Refusal>,
    pub state: Vec<Record>,
}

/// A run: 11 and 15 over the whole list, then slot by slot up to the first that is refused.
pub fn run(sheet: &Sheet, state: &[Record], releases: &[u64], buffer: &mut [u8]) -> Ran {
    let n = sheet.rows.len();
    let mut ran = Ran { done: 0, refusal: None, state: state.to_vec() };
    if releases.len() % n != 0 {
        ran.refusal = refuse::<()>(11, 0).err();
    } else if buffer.len() < releases.len() {
        ran.refusal = refuse::<()>(15, 0).err();
    } else {
        for (list, codes) in releases.chunks(n).zip(buffer.chunks_mut(n)) {
            match advance(sheet, &ran.state, list, codes) {
                Ok(next) => ran.state = next,
                Err(refusal) => {
                    ran.refusal = Some(refusal);
                    if broken(Rule::RefusedSlotWritten) {
                        codes.fill(0);
                    }
                    ran.done += broken(Rule::RefusedSlotCounted) as u64;
                    break;
                }
            }
            ran.done += 1;
        }
    }
    ran
}

/// The margin of a row, or none where it has no job; 14 past the last row.
pub fn margin(sheet: &Sheet, state: &[Record], row: u64) -> Result<Option<i64>, Refusal> {
    if row >= sheet.rows.len() as u64 {
        return refuse(14, 0);
    }
    let (Record { remaining, since }, row) = (state[row as usize], sheet.rows[row as usize]);
    Ok(match remaining {
        0 if broken(Rule::NoJobIsZero) => Some(0),
        0 => None,
        _ => Some(row.deadline as i64 - since as i64 - remaining as i64),
    })
}
