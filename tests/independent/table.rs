//! What was compared, group by group.

use crate::case::{Case, Kind};
use crate::page::word_at;

/// One group: its cases, and what they stand for besides.
struct Line {
    group: &'static str,
    cases: u64,
    parts: u64,
    unit: &'static str,
}

/// The groups in the order in which they came.
#[derive(Default)]
pub struct Table(Vec<Line>);

/// What a case stands for, by its answer: strings, sheets with bounds, or slots that are worked.
fn parts(case: &Case, answer: &[u8]) -> (u64, &'static str) {
    match case.kind() {
        Kind::Sweep | Kind::ScenarioSweep => (256, "strings"),
        Kind::Slot => ((word_at(answer, 0) == Some(0)) as u64, "slots"),
        Kind::Run | Kind::BoxRun => (word_at(answer, 16).unwrap_or(0), "slots"),
        Kind::Bounds => (1, "sheets"),
        _ => (0, ""),
    }
}

impl Table {
    /// Counts a case with its answer.
    pub fn count(&mut self, group: &'static str, case: &Case, answer: &[u8]) {
        let (parts, unit) = parts(case, answer);
        let line = self.line(group);
        line.cases += 1;
        if parts > 0 {
            (line.parts, line.unit) = (line.parts + parts, unit);
        }
    }

    /// The groups of another table after those of this one.
    pub fn join(&mut self, other: Table) {
        self.0.extend(other.0);
    }

    /// Counts runs of a program.
    pub fn count_runs(&mut self, group: &'static str, runs: u64) {
        self.line(group).cases += runs;
    }

    /// The line of a group.
    fn line(&mut self, group: &'static str) -> &mut Line {
        let known = self.0.iter().rposition(|line| line.group == group);
        let place = known.unwrap_or(self.0.len());
        if known.is_none() {
            self.0.push(Line { group, cases: 0, parts: 0, unit: "" });
        }
        &mut self.0[place]
    }

    /// Prints every group, what they come to, and how many cases there are.
    pub fn print(&self) {
        for Line { group, cases, parts, unit } in &self.0 {
            match parts {
                0 => println!("{cases:>9}  {group}"),
                _ => println!("{cases:>9}  {group:<44} {parts:>9} {unit}"),
            }
        }
        for unit in ["strings", "sheets", "slots"] {
            let sum: u64 = self.0.iter().filter(|line| line.unit == unit).map(|line| line.parts).sum();
            println!("{:>9}  {:<44} {sum:>9} {unit}", "", "in all");
        }
        println!("{} cases, 0 differences", self.0.iter().map(|line| line.cases).sum::<u64>());
    }
}
