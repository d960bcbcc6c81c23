//! Random sheets, labels, lists, states, releases and buffers.

use crate::case::Room;
use crate::dice::Dice;
use crate::machine::Record;
use crate::reader::{fields, LONGEST_LABEL};
use crate::sheet::{Row, Sheet, LONGEST_SEPARATION, MOST_PROCESSORS, MOST_ROWS};

/// Numbers at the edges of the number's groups and of the sheet's ranges.
const EDGES: [u64; 14] = [1, 2, 63, 64, 126, 127, 128, 129, 16_382, 16_383, 16_384, 16_385, 999_999, LONGEST_SEPARATION];

/// Numbers that few ranges allow.
const GARBAGE: [u64; 9] = [0, 1, 7, 33, 65, LONGEST_SEPARATION + 1, 1 << 32, 1 << 63, u64::MAX];

/// How large the numbers of a sheet are.
#[derive(Clone, Copy)]
pub enum Size {
    Tiny,
    Small,
    Light,
    Edge,
    Any,
}

pub const SIZES: [Size; 5] = [Size::Tiny, Size::Small, Size::Light, Size::Edge, Size::Any];

/// The most numbers of a sheet's list and of a state's.
pub const LONGEST_SHEET_LIST: usize = 160;
pub const LONGEST_STATE_LIST: usize = 80;

impl Dice {
    /// A number that is likely out of range.
    pub fn garbage(&mut self) -> u64 {
        self.pick(&GARBAGE)
    }

    /// A number from 1 to the most, of a size.
    pub fn upto(&mut self, most: u64, size: Size) -> u64 {
        if self.one_in(5) {
            return most;
        }
        match size {
            Size::Edge => self.pick(&EDGES).min(most),
            _ => self.range(1, most),
        }
    }

    /// A row in range.
    pub fn row(&mut self, m: u64, size: Size) -> Row {
        let threads = self.upto(m, size);
        let separation = match size {
            Size::Tiny => self.range(1, 6),
            Size::Small | Size::Light => self.range(4, 200),
            Size::Edge => self.pick(&EDGES),
            Size::Any => self.range(1, LONGEST_SEPARATION),
        };
        let deadline = match size {
            Size::Light => self.range(separation - separation / 3, separation),
            _ => self.upto(separation, size),
        };
        let budget = match size {
            Size::Light => self.range(1, 1 + deadline / 8),
            Size::Any | Size::Edge if self.one_in(2) => self.range(1, 1 + (deadline - 1) / 9),
            _ => self.upto(deadline, size),
        };
        Row { threads, separation, deadline, budget }
    }

    /// A number of processors.
    pub fn processors(&mut self) -> u64 {
        let most = if self.one_in(2) { MOST_PROCESSORS } else { 8 };
        if self.one_in(6) {
            self.pick(&[1, MOST_PROCESSORS])
        } else {
            self.range(1, most)
        }
    }

    /// A legal sheet of so many rows.
    pub fn sheet(&mut self, rows: u64, size: Size) -> Sheet {
        let processors = self.processors();
        Sheet { processors, rows: (0..rows).map(|_| self.row(processors, size)).collect() }
    }

    /// A count of rows, often small.
    pub fn count(&mut self) -> u64 {
        match self.bits() % 4 {
            0 => self.range(1, MOST_ROWS as u64),
            1 => self.pick(&[1, 2, 31, 32]),
            _ => self.range(1, 6),
        }
    }

    /// Labels for a sheet, some of them equal.
    pub fn labels(&mut self, rows: u64) -> Vec<Vec<u8>> {
        let mut labels: Vec<Vec<u8>> = Vec::new();
        for k in 0..rows as usize {
            let length = if self.one_in(3) { self.pick(&[1, LONGEST_LABEL]) } else { self.range(1, LONGEST_LABEL) };
            let label = (0..length).map(|_| if self.one_in(8) { self.pick(b"\x21\x7e") } else { self.range(0x21, 0x7e) as u8 });
            let label = label.collect();
            labels.push(if k > 0 && self.one_in(6) { labels[k - 1].clone() } else { label });
        }
        labels
    }

    /// The fields of a legal sheet of so many rows, each in its bytes.
    pub fn fields(&mut self, rows: u64, size: Size) -> Vec<Vec<u8>> {
        let sheet = self.sheet(rows, size);
        let labels = self.labels(rows);
        fields(&sheet, &labels)
    }

    /// The sheet's list, sometimes with garbage after its rows.
    pub fn handed(&mut self, sheet: &Sheet) -> Vec<u64> {
        let mut list = sheet.list();
        if self.one_in(3) {
            let length = self.range(list.len() as u64, LONGEST_SHEET_LIST as u64) as usize;
            list.resize_with(length, || self.garbage());
        }
        list
    }

    /// A list to be filled with so many numbers: often as long, sometimes longer, seldom too short.
    pub fn lent(&mut self, needed: usize) -> Vec<u64> {
        let length = match self.bits() % 16 {
            0 => self.range(0, needed as u64 - 1) as usize,
            1 => needed - 1,
            2..=5 => self.range(needed as u64, LONGEST_SHEET_LIST as u64) as usize,
            _ => needed,
        };
        (0..length).map(|_| self.garbage()).collect()
    }

    /// A legal state of a sheet.
    pub fn state(&mut self, sheet: &Sheet) -> Vec<Record> {
        let mut state = Vec::new();
        for row in &sheet.rows {
            state.push(if row.deadline > 1 && self.one_in(2) {
                let latest = row.deadline - 1;
                let since = if self.one_in(3) { latest } else { self.range(1, latest) };
                Record { remaining: self.upto(row.budget, Size::Edge), since }
            } else {
                let since = if self.one_in(2) { row.separation } else { self.range(1, row.separation) };
                Record { remaining: 0, since }
            });
        }
        state
    }

    /// A release for each row; one in so many is likely refused.
    pub fn releases(&mut self, sheet: &Sheet, state: &[Record], wrong: u64) -> Vec<u64> {
        let mut list = Vec::new();
        for (record, row) in state.iter().zip(&sheet.rows) {
            let ready = record.since >= row.separation;
            list.push(if self.one_in(wrong) {
                self.pick(&[row.budget + 1, row.budget, 1, u64::MAX])
            } else if ready && !self.one_in(3) {
                self.upto(row.budget, Size::Edge)
            } else {
                0
            });
        }
        list
    }

    /// Random bytes with so many lent out of their middle.
    pub fn room(&mut self, long: usize) -> Room {
        let (before, after) = (self.pick(&[0, 0, 1, 2, 7]), self.pick(&[0, 0, 1, 2, 7]));
        Room { before, long, bytes: self.bytes(before + long + after) }
    }

    /// A buffer for so many bytes: often as long, sometimes longer, sometimes too short.
    pub fn room_for(&mut self, needed: usize) -> Room {
        let long = match self.bits() % 8 {
            0 => self.range(0, needed as u64) as usize,
            1 | 2 => needed.saturating_sub(1),
            3 | 4 => needed + self.range(1, 40) as usize,
            _ => needed,
        };
        self.room(long)
    }
}
