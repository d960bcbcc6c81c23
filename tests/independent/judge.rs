//! Jobs held to their bounds: every job of a run that finishes does so within its row's bound, and none is missed.

use crate::case::{Case, Kind, Step};
use crate::page::word_at;
use crate::rules::{broken, Rule};
use crate::sheet::at;

/// Where the state begins in the answer to a run: after a refusal and the slots done.
const STATE: usize = 24;

/// What was seen of the jobs in rows that may have to wait: those whose bound is over their budget.
#[derive(Default)]
pub struct Watch {
    jobs: u64,
    exact: u64,
    worst: (u64, u64),
}

impl Watch {
    /// Follows every job of a run through the codes of the answer; what is wrong, where a job is missed or late.
    pub fn judge(&mut self, case: &Case, bounds: &[u64], answer: &[u8]) -> Option<String> {
        let (Case::Run(step) | Case::BoxRun(step)) = case else { panic!("only runs have jobs to follow") };
        let Step { sheet, state, releases, codes: room } = step;
        if word_at(answer, 0) != Some(0) {
            return Some("the run is refused".to_string());
        }
        let codes = &answer[STATE + 8 * state.len() + room.before..][..releases.len()];
        let n = bounds.len();
        let less = broken(Rule::BoundOneLess) as u64;
        let since = |k: usize| if case.kind() == Kind::Run { at(state, 2 * k + 1) as i64 } else { 0 };
        let mut released: Vec<i64> = (0..n).map(|k| -since(k)).collect();
        for (slot, (list, codes)) in releases.chunks(n).zip(codes.chunks(n)).enumerate() {
            for k in 0..n {
                if list[k] > 0 {
                    released[k] = slot as i64;
                }
                let response = (slot as i64 + 1 - released[k]) as u64;
                match codes[k] {
                    3 if response + less > bounds[k] => {
                        return Some(format!(
                            "row {k} finishes in slot {slot} after {response} slots, its bound is {}",
                            bounds[k]
                        ));
                    }
                    3 if bounds[k] > at(sheet, 4 * k + 5) => self.finished(response, bounds[k]),
                    4 => return Some(format!("row {k} is missed in slot {slot}")),
                    _ => {}
                }
            }
        }
        None
    }

    /// A job that finished in time.
    fn finished(&mut self, response: u64, bound: u64) {
        self.jobs += 1;
        self.exact += (response == bound) as u64;
        let (r, b) = self.worst;
        if (response * b, bound) > (r * bound, b) {
            self.worst = (response, bound);
        }
    }

    /// Prints how close the jobs come to their bounds.
    pub fn report(&self) {
        let (response, bound) = self.worst;
        if self.jobs > 0 {
            let share = 100.0 * response as f64 / bound as f64;
            println!("every job is within its bound; of {} jobs in rows whose bound is over their budget", self.jobs);
            println!(
                "the slowest takes {share:.1}% of its bound ({response} of {bound}), and {} finish exactly at it",
                self.exact
            );
        }
    }
}
