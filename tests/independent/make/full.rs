//! Bounds of sheets at full scale: separations up to the longest, with few rows.

use super::bounds::ask;
use crate::batch::Cases;
use crate::dice::Dice;
use crate::sheet::{Row, Sheet, LONGEST_SEPARATION};

/// Some dozens of sheets, with long and with short separations above a long deadline.
pub fn all(cases: &mut dyn Cases, dice: &mut Dice, times: u64) {
    for turn in 0..48 * times {
        let processors = dice.pick(&[1, 2, 4, 64]);
        let mut rows = Vec::new();
        for _ in 0..dice.range(1, 3) {
            let separation = match turn % 3 {
                0 => dice.range(2, 40),
                1 => dice.range(100, 10_000),
                _ => dice.range(800_000, LONGEST_SEPARATION),
            };
            let budget = dice.range(1, 1 + separation / 5);
            rows.push(Row { threads: dice.range(1, processors), separation, deadline: separation, budget });
        }
        let deadline = if dice.one_in(2) { LONGEST_SEPARATION } else { dice.range(900_000, LONGEST_SEPARATION) };
        let budget = dice.pick(&[1, 1_000, 300_000, 600_000, deadline - 10_000, deadline]);
        rows.push(Row { threads: dice.range(1, processors), separation: LONGEST_SEPARATION, deadline, budget });
        ask(cases, dice, "bounds, full scale", &Sheet { processors, rows });
    }
}
