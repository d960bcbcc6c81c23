//! The sheet: its rows, the list of plain numbers that hands one over, and the sheets A to F.

use crate::number::{refuse, Refusal};
use crate::rules::{broken, Rule};

/// The most rows.
pub const MOST_ROWS: usize = 32;
/// The most processors.
pub const MOST_PROCESSORS: u64 = 64;
/// The longest separation.
pub const LONGEST_SEPARATION: u64 = 1_000_000;

/// One row, without its label.
#[derive(Clone, Copy, Debug, PartialEq)]
pub struct Row {
    pub threads: u64,
    pub separation: u64,
    pub deadline: u64,
    pub budget: u64,
}

impl Row {
    /// The row of these numbers, in the order of the sheet.
    pub const fn of([threads, separation, deadline, budget]: [u64; 4]) -> Row {
        Row { threads, separation, deadline, budget }
    }

    /// The row's numbers, in the order of the sheet.
    pub fn numbers(&self) -> [u64; 4] {
        [self.threads, self.separation, self.deadline, self.budget]
    }

    /// Whether the row is in range on so many processors.
    fn in_range(&self, m: u64) -> bool {
        (1..=m).contains(&self.threads)
            && (1..=LONGEST_SEPARATION).contains(&self.separation)
            && (1..=self.separation).contains(&self.deadline)
            && (1..=self.deadline).contains(&self.budget)
    }
}

/// A legal sheet, without its labels.
#[derive(Clone, Debug, PartialEq)]
pub struct Sheet {
    pub processors: u64,
    pub rows: Vec<Row>,
}

/// The number at a place of a list; a missing one counts as zero.
pub fn at(list: &[u64], place: usize) -> u64 {
    list.get(place).copied().unwrap_or(0)
}

impl Sheet {
    /// The sheet of these rows.
    pub fn of(processors: u64, rows: &[[u64; 4]]) -> Sheet {
        Sheet { processors, rows: rows.iter().copied().map(Row::of).collect() }
    }

    /// The sheet that a list hands over, or 10 where m, n or a row breaks its range.
    pub fn handed(list: &[u64]) -> Result<Sheet, Refusal> {
        let (processors, count) = (at(list, 0), at(list, 1));
        if !(1..=MOST_PROCESSORS).contains(&processors) || !(1..=MOST_ROWS as u64).contains(&count) {
            return refuse(10, 0);
        }
        let row = |k: usize| Row::of([2, 3, 4, 5].map(|place| at(list, 4 * k + place)));
        let rows: Vec<Row> = (0..count as usize).map(row).collect();
        let past = broken(Rule::RowPastLast) && !row(rows.len()).in_range(processors);
        if past || !rows.iter().all(|row| row.in_range(processors)) {
            return refuse(10, 0);
        }
        Ok(Sheet { processors, rows })
    }

    /// The list that hands the sheet over.
    pub fn list(&self) -> Vec<u64> {
        let mut list = vec![self.processors, self.rows.len() as u64];
        list.extend(self.rows.iter().flat_map(Row::numbers));
        list
    }
}

/// Sheets A to F.
pub fn fixed() -> [Sheet; 6] {
    let last = if broken(Rule::FixedNumber) { 2 } else { 1 };
    [
        Sheet::of(4, &[[2, 5, 5, 2], [3, 10, 10, 3]]),
        Sheet::of(4, &[[3, 4, 4, 2], [2, 8, 8, 2], [1, 8, 8, 3]]),
        Sheet::of(2, &[[2, 2, 2, 1], [1, 4, 4, 3]]),
        Sheet::of(2, &[[2, 2, 2, 1], [1, 4, 4, 2]]),
        Sheet::of(4, &[[4, 6, 6, 2], [4, 6, 6, 2]]),
        Sheet::of(1, &[[1, last, 1, 1]]),
    ]
}
