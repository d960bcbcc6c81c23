//! Sheets written: random ones, those that were read, corrected ones, and sheets at fault in several ways at once.

use super::handed::spoiled;
use crate::batch::Cases;
use crate::case::{Case, Draft, Room};
use crate::dice::Dice;
use crate::number::Refusal;
use crate::random::{Size, LONGEST_STATE_LIST, SIZES};
use crate::reader::{read, LONGEST_LABEL};
use crate::rules::all_kept;
use crate::sheet::{Sheet, LONGEST_SEPARATION};
use crate::writer::{labels, sheet_bytes, HIGHEST, LOWEST};

/// A sheet to be written: its list, of each row where its label starts and how long it is, and the bytes that the labels lie in.
#[derive(Clone)]
pub struct Plan {
    pub sheet: Vec<u64>,
    pub labels: Vec<u64>,
    pub bytes: Vec<u8>,
}

impl Plan {
    /// The plan that is read from a sheet's own bytes.
    pub fn read(bytes: Vec<u8>) -> Plan {
        let (sheet, _) = read(&bytes).expect("a legal sheet is read");
        let labels = labels(&bytes).expect("a legal sheet is read");
        Plan { sheet: sheet.list(), labels, bytes }
    }

    /// What is written, or its refusal.
    fn written(&self) -> Result<Vec<u8>, Refusal> {
        sheet_bytes(&self.sheet, &self.bytes, &self.labels)
    }

    /// How many bytes are written; none where it is refused.
    pub fn long(&self) -> usize {
        self.written().map_or(0, |bytes| bytes.len())
    }

    /// Asks for the plan written into a buffer. The bytes are lent out of the middle of plain ones, so that a part outside them
    /// looks like a label.
    pub fn ask(&self, cases: &mut dyn Cases, dice: &mut Dice, group: &'static str, buffer: Room) {
        let (before, after) = (dice.pick(&[0, 2, 16]), dice.pick(&[0, 2, 17]));
        let bytes = [&dice.plain(before), &self.bytes[..], &dice.plain(after)].concat();
        let bytes = Room { before, long: self.bytes.len(), bytes };
        cases.add(group, Case::Write(Draft { sheet: self.sheet.clone(), labels: self.labels.clone(), bytes, buffer }));
    }

    /// Stops where what is written does not read back as the numbers and the labels, or is not written again as its very bytes.
    fn hold(&self) {
        let written = self.written().expect("a legal sheet is written");
        let (sheet, parts) = read(&written).expect("what is written is read");
        assert_eq!(Sheet::handed(&self.sheet), Ok(sheet.clone()), "the numbers read back");
        for ((start, length), part) in parts.iter().zip(self.labels.chunks(2)) {
            let label = &self.bytes[part[0] as usize..][..part[1] as usize];
            assert_eq!(&written[*start..][..*length], label, "the labels read back");
        }
        let again = labels(&written).and_then(|parts| sheet_bytes(&sheet.list(), &written, &parts));
        assert_eq!(again, Ok(written), "a sheet that is read is written as its very bytes");
    }
}

impl Dice {
    /// So many bytes that may stand in a label.
    fn plain(&mut self, length: usize) -> Vec<u8> {
        (0..length).map(|_| self.range(LOWEST as u64, HIGHEST as u64) as u8).collect()
    }

    /// Parts for labels that lie in one string in any order, equal ones shared, with any bytes around them.
    fn scattered(&mut self, labels: &[Vec<u8>]) -> (Vec<u64>, Vec<u8>) {
        let mut order: Vec<usize> = (0..labels.len()).collect();
        (1..order.len()).for_each(|k| order.swap(k, self.range(0, k as u64) as usize));
        let (mut parts, mut bytes) = (vec![0; 2 * labels.len()], Vec::new());
        for row in order {
            let more = self.pick(&[0, 0, 1, 5]);
            bytes.extend(self.bytes(more));
            let label = &labels[row];
            let known = bytes.windows(label.len()).position(|part| part == label);
            parts[2 * row] = known.unwrap_or(bytes.len()) as u64;
            parts[2 * row + 1] = label.len() as u64;
            if known.is_none() {
                bytes.extend(label);
            }
        }
        (parts, bytes)
    }

    /// Parts of one string of plain bytes for so many rows, so that labels overlap.
    fn overlapping(&mut self, rows: u64) -> (Vec<u64>, Vec<u8>) {
        let long = self.range(1, 40);
        let mut parts = Vec::new();
        for _ in 0..rows {
            let start = self.range(0, long - 1);
            parts.extend([start, self.range(1, LONGEST_LABEL.min(long - start))]);
        }
        (parts, self.plain(long as usize))
    }

    /// A legal sheet with labels, its lists sometimes with garbage after the rows.
    fn plan(&mut self, turn: u64) -> Plan {
        let rows = self.count();
        let sheet = self.sheet(rows, SIZES[turn as usize % SIZES.len()]);
        let (mut labels, bytes) = if self.one_in(3) {
            self.overlapping(rows)
        } else {
            let labels = self.labels(rows);
            self.scattered(&labels)
        };
        if self.one_in(3) {
            let length = self.range(labels.len() as u64, LONGEST_STATE_LIST as u64) as usize;
            labels.resize_with(length, || self.garbage());
        }
        Plan { sheet: self.handed(&sheet), labels, bytes }
    }
}

/// Random sheets with random labels, and sheets in bytes written again from these very bytes.
pub fn sheets(cases: &mut dyn Cases, dice: &mut Dice, times: u64) {
    for turn in 0..8_000 * times {
        let plan = dice.plan(turn);
        if all_kept() {
            plan.hold();
        }
        let buffer = dice.room_for(plan.long());
        plan.ask(cases, dice, "sheets written", buffer);
    }
    for turn in 0..4_000 * times {
        let rows = dice.count();
        let bytes = dice.fields(rows, SIZES[turn as usize % SIZES.len()]).concat();
        let (plan, buffer) = (Plan::read(bytes.clone()), dice.room_for(bytes.len()));
        assert!(!all_kept() || plan.written() == Ok(bytes), "a sheet that is read is written as its very bytes");
        plan.ask(cases, dice, "sheets written again", buffer);
    }
}

/// Sheets that were read, with one number or one label replaced.
pub fn corrected(cases: &mut dyn Cases, dice: &mut Dice, times: u64) {
    for turn in 0..6_000 * times {
        let rows = dice.count();
        let read = Plan::read(dice.fields(rows, SIZES[turn as usize % SIZES.len()]).concat());
        let mut number = read.clone();
        number.sheet = if turn % 4 == 0 { spoiled(dice, number.sheet) } else { other_number(dice, number.sheet) };
        let buffer = dice.room_for(number.long());
        number.ask(cases, dice, "sheets written, a number replaced", buffer);
        let mut label = read;
        other_label(dice, &mut label, turn % 4 == 0);
        let buffer = dice.room_for(label.long());
        label.ask(cases, dice, "sheets written, a label replaced", buffer);
    }
}

/// A sheet's list with one number of one row replaced by another in its range.
fn other_number(dice: &mut Dice, mut list: Vec<u64>) -> Vec<u64> {
    let row = 4 * dice.range(0, list[1] - 1) as usize;
    let field = dice.range(2, 5) as usize;
    let (least, most) = match field {
        2 => (1, list[0]),
        3 => (list[row + 4], LONGEST_SEPARATION),
        4 => (list[row + 5], list[row + 3]),
        _ => (1, list[row + 4]),
    };
    list[row + field] = if dice.one_in(2) { dice.range(least, most) } else { dice.upto(most, Size::Edge).max(least) };
    list
}

/// Replaces one label by another behind the sheet's bytes; one that is at fault where that is asked for.
fn other_label(dice: &mut Dice, plan: &mut Plan, fault: bool) {
    let row = dice.range(0, plan.sheet[1] - 1) as usize;
    let length = if fault { dice.pick(&[0, 1, 16, 17, 18]) } else { dice.range(1, LONGEST_LABEL) };
    let mut label = dice.plain(length as usize);
    if fault && (1..=LONGEST_LABEL).contains(&length) {
        let at = dice.range(0, length - 1) as usize;
        label[at] = dice.pick(&[0, LOWEST - 1, HIGHEST + 1, 0x80, 0xff]);
    }
    plan.labels[2 * row..2 * row + 2].copy_from_slice(&[plan.bytes.len() as u64, length]);
    plan.bytes.extend(label);
}

/// Sheets at fault in their numbers, in labels of any rows and in the buffer's length, each thrown apart from the others.
pub fn faults(cases: &mut dyn Cases, dice: &mut Dice, times: u64) {
    for turn in 0..12_000 * times {
        let mut plan = dice.plan(turn);
        let long = plan.long();
        for _ in 0..dice.pick(&[0, 1, 1, 2, 5]) {
            bad_label(dice, &mut plan);
        }
        if dice.one_in(2) {
            plan.sheet = spoiled(dice, plan.sheet);
        }
        if dice.one_in(8) {
            plan.sheet.truncate(dice.range(0, plan.sheet.len() as u64) as usize);
        }
        if dice.one_in(8) {
            plan.labels.truncate(dice.range(0, plan.labels.len() as u64) as usize);
        }
        let short = dice.range(0, long as u64) as usize;
        let room = dice.pick(&[0, short, long.saturating_sub(1), long, long, long + 3]);
        let buffer = dice.room(room);
        plan.ask(cases, dice, "sheets written, faults", buffer);
    }
}

/// Spoils the label of one row: its length, where it lies, or one of its bytes.
fn bad_label(dice: &mut Dice, plan: &mut Plan) {
    let (row, long) = (dice.range(0, plan.sheet[1] - 1) as usize, plan.bytes.len() as u64);
    let part = &mut plan.labels[2 * row..2 * row + 2];
    match dice.bits() % 8 {
        0 => part[1] = dice.pick(&[0, LONGEST_LABEL + 1]),
        1 => part[0] = long - dice.range(0, part[1].min(long)) + 1,
        2 => part.copy_from_slice(&[dice.pick(&[long, long + 1, u64::MAX]), 1]),
        3 => part[0] = u64::MAX - dice.range(0, LONGEST_LABEL),
        4 => part[1] = dice.garbage(),
        5 => part[0] = dice.garbage(),
        _ => {
            let at = part[0].wrapping_add(dice.range(0, part[1].clamp(1, LONGEST_LABEL) - 1));
            if let Some(byte) = usize::try_from(at).ok().and_then(|at| plan.bytes.get_mut(at)) {
                *byte = dice.pick(&[0, LOWEST - 1, HIGHEST + 1, 0x80, 0xff]);
            }
        }
    }
}
