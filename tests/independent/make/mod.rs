//! The cases, group by group, each group from random numbers of its own.

mod bounds;
mod damaged;
mod edges;
mod families;
mod fields;
mod full;
mod handed;
mod jobs;
mod numbers;
mod parts;
mod runs;
pub mod scenarios;
mod sheets;
mod slots;
mod small;
mod strings;
pub mod texts;
pub mod worked;
mod written;

use crate::batch::Cases;
use crate::case::{Kind, EVERY_KIND};
use crate::dice::Dice;

/// What makes a group: it adds cases, so many times the usual number of random ones.
type Make = fn(&mut dyn Cases, &mut Dice, u64);

/// The two halves, about equally long, that are asked at the same time.
#[derive(Clone, Copy, PartialEq)]
pub enum Half {
    /// Sheets in bytes, read and written, and bounds.
    Sheets,
    /// The machine, and all else.
    Machine,
}

/// Every group: its half, the kinds of its cases, and what makes it.
const GROUPS: [(Half, &[Kind], Make); 26] = [
    (Half::Machine, &EVERY_KIND, worked::all),
    (Half::Machine, &[Kind::Number, Kind::UpTo], numbers::all),
    (Half::Sheets, &[Kind::Read, Kind::Label], sheets::all),
    (Half::Sheets, &[Kind::Read, Kind::Label], fields::all),
    (Half::Sheets, &[Kind::Read, Kind::Label], damaged::all),
    (Half::Machine, &[Kind::Legal, Kind::Fresh, Kind::Bounds, Kind::Fixed], handed::all),
    (Half::Sheets, &[Kind::Bounds], bounds::small),
    (Half::Sheets, &[Kind::Bounds], bounds::random),
    (Half::Sheets, &[Kind::Bounds], families::all),
    (Half::Sheets, &[Kind::Bounds], full::all),
    (Half::Machine, &[Kind::Slot, Kind::Margin], small::all),
    (Half::Machine, &[Kind::Slot, Kind::Margin], slots::all),
    (Half::Machine, &[Kind::Margin], slots::margins),
    (Half::Machine, &[Kind::Run, Kind::BoxRun], jobs::all),
    (Half::Machine, &[Kind::Run, Kind::BoxRun], runs::all),
    (Half::Machine, &[Kind::Verdict, Kind::Green], texts::all),
    (Half::Sheets, &[Kind::Read, Kind::Sweep], strings::all),
    (Half::Machine, &[Kind::ReadScenario], scenarios::files),
    (Half::Machine, &[Kind::ReadScenario], scenarios::made_up),
    (Half::Machine, &[Kind::ScenarioSweep], scenarios::strings),
    (Half::Machine, &[Kind::WriteScenario], scenarios::lists),
    (Half::Sheets, &[Kind::Labels], parts::all),
    (Half::Sheets, &[Kind::Write], edges::all),
    (Half::Sheets, &[Kind::Write], written::sheets),
    (Half::Sheets, &[Kind::Write], written::corrected),
    (Half::Sheets, &[Kind::Write], written::faults),
];

/// Whether a half has cases of the kind, or any cases where no kind is named.
pub fn any(only: Option<Kind>, half: Half) -> bool {
    GROUPS.iter().any(|(its, kinds, _)| *its == half && only.is_none_or(|kind| kinds.contains(&kind)))
}

/// All the cases of a half that are wanted, the same for the same seed.
pub fn all(cases: &mut dyn Cases, half: Half, seed: u64, times: u64) {
    for (turn, (its, kinds, make)) in GROUPS.iter().enumerate() {
        if *its == half && cases.wants(kinds) {
            make(cases, &mut Dice(seed.wrapping_add((turn as u64) << 40)), times);
        }
    }
}
