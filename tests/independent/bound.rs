//! The bound of each row: the smallest length that passes, length by length.

use crate::rules::{broken, Rule};
use crate::sheet::{Row, Sheet};

/// A row's result.
#[derive(Clone, Copy, Debug, PartialEq)]
pub enum Outcome {
    Bound(u64),
    NoBound,
    Unreached,
}

/// A row above and its bound.
type Above = (Row, u64);

/// The work W of a row above in a window of this length.
fn work((row, bound): &Above, length: u64) -> u64 {
    let x = if broken(Rule::InsideOnly) { length } else { length + bound - row.budget };
    let n = x / row.separation;
    n * row.budget + row.budget.min(x - n * row.separation)
}

/// The sum at which the rows above are left: q times X.
fn enough(room: u64) -> u64 {
    match () {
        _ if broken(Rule::EqualPasses) => room + 1,
        _ if broken(Rule::StopsOneShort) => room - 1,
        _ => room,
    }
}

/// Whether this length passes for the row below those above: their amounts are added from the top, until the sum reaches q times X.
fn passes(m: u64, above: &[Above], row: &Row, length: u64) -> bool {
    let q = m - row.threads + 1;
    let x = length - row.budget + if broken(Rule::ShortWindow) { 0 } else { 1 };
    let cap = if broken(Rule::NoCap) { m } else { q };
    let enough = enough(q * x);
    let mut sum = 0;
    for (i, higher) in above.iter().enumerate() {
        let amount = work(higher, length).min(x) * higher.0.threads.min(cap);
        if broken(Rule::LateRowNotAdded) && sum + amount >= enough {
            break;
        }
        sum += amount;
        if sum >= enough {
            return broken(Rule::YesWhereStopped) && i + 1 < above.len();
        }
    }
    sum < enough.max(q * x)
}

/// Each row's result: from the top, each row below those with their bounds, until one has none.
pub fn bounds(sheet: &Sheet) -> Vec<Outcome> {
    let (mut results, mut above) = (Vec::new(), Vec::new());
    for row in &sheet.rows {
        if results.last() == Some(&Outcome::NoBound) {
            break;
        }
        let passing = (row.budget..=row.deadline).find(|length| passes(sheet.processors, &above, row, *length));
        results.push(passing.map_or(Outcome::NoBound, Outcome::Bound));
        above.extend(passing.map(|bound| (*row, bound)));
    }
    let after = if broken(Rule::UnreachedIsNone) { Outcome::NoBound } else { Outcome::Unreached };
    results.resize(sheet.rows.len(), after);
    results
}

/// Whether every row has a bound.
pub fn holds(results: &[Outcome]) -> bool {
    results.iter().all(|result| matches!(result, Outcome::Bound(_)))
}
