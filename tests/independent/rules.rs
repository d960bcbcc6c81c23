//! The rules that this program can be told to break, one in a process, so that the comparison is seen to fail.

use crate::case::Kind;
use std::sync::atomic::{AtomicUsize, Ordering::Relaxed};

/// A rule, by what is done where it is broken.
#[derive(Clone, Copy, Debug, PartialEq)]
pub enum Rule {
    ZeroLastGroup,
    FourthGroup,
    MostRefused,
    TrailingBytes,
    ZeroIsOver,
    RestOfListKept,
    FirstLabel,
    NoCap,
    ShortWindow,
    InsideOnly,
    EqualPasses,
    StopsOneShort,
    LateRowNotAdded,
    YesWhereStopped,
    UnreachedIsNone,
    FreshSinceZero,
    FirstMisfitStops,
    MissBeforeFinish,
    SincePastSeparation,
    SoonBeforeBudget,
    SpareRecords,
    RefusedSlotCounted,
    RefusedSlotWritten,
    BoundOneLess,
    NoJobIsZero,
    HoldsBesideNone,
    RefusedIsGreen,
    FormBeforeEnd,
    RowPastLast,
    BoxNotReady,
    FixedNumber,
    PlaceFromOne,
    LabelsFromOne,
    RepeatedRow,
    ZeroCount,
    NoRowIsOrder,
    RoomFirst,
    PastSlotsCleared,
    OneReleaseShort,
    PlaceInList,
    SlotsFromOne,
    LabelAtLength,
    LabelsRoomFirst,
    LabelsBeforeSheet,
    RoomBeforeLabels,
    EmptyLabel,
    LabelOfSeventeen,
    BlankInLabel,
    LabelPastTilde,
    PartCut,
    PartWraps,
    MissingLabels,
    LastRowAtFault,
    BudgetFirst,
    LongForm,
    FrontWritten,
    MarkWritten,
    PastBytesCleared,
}

/// Every rule with the kind of case that has to show it broken, and its name; a rule that two kinds stand on has a name for each.
pub const RULES: [(Rule, Kind, &str); 60] = [
    (Rule::ZeroLastGroup, Kind::Number, "zero-last-group"),
    (Rule::FourthGroup, Kind::Number, "fourth-group"),
    (Rule::MostRefused, Kind::UpTo, "most-refused"),
    (Rule::TrailingBytes, Kind::Read, "trailing-bytes"),
    (Rule::ZeroIsOver, Kind::Read, "zero-is-over"),
    (Rule::RestOfListKept, Kind::Read, "rest-of-list-kept"),
    (Rule::FirstLabel, Kind::Label, "first-label"),
    (Rule::NoCap, Kind::Bounds, "no-cap"),
    (Rule::ShortWindow, Kind::Bounds, "short-window"),
    (Rule::InsideOnly, Kind::Bounds, "inside-only"),
    (Rule::EqualPasses, Kind::Bounds, "equal-passes"),
    (Rule::StopsOneShort, Kind::Bounds, "stops-one-short"),
    (Rule::LateRowNotAdded, Kind::Bounds, "late-row-not-added"),
    (Rule::YesWhereStopped, Kind::Bounds, "yes-where-stopped"),
    (Rule::UnreachedIsNone, Kind::Bounds, "unreached-is-none"),
    (Rule::FreshSinceZero, Kind::Fresh, "fresh-since-zero"),
    (Rule::FirstMisfitStops, Kind::Slot, "first-misfit-stops"),
    (Rule::MissBeforeFinish, Kind::Slot, "miss-before-finish"),
    (Rule::SincePastSeparation, Kind::Slot, "since-past-separation"),
    (Rule::SoonBeforeBudget, Kind::Slot, "soon-before-budget"),
    (Rule::SpareRecords, Kind::Slot, "spare-records"),
    (Rule::RefusedSlotCounted, Kind::Run, "refused-slot-counted"),
    (Rule::RefusedSlotWritten, Kind::Run, "refused-slot-written"),
    (Rule::BoundOneLess, Kind::Run, "bound-one-less"),
    (Rule::NoJobIsZero, Kind::Margin, "no-job-is-zero"),
    (Rule::HoldsBesideNone, Kind::Verdict, "holds-beside-none"),
    (Rule::RefusedIsGreen, Kind::Green, "refused-is-green"),
    (Rule::FormBeforeEnd, Kind::Sweep, "form-before-end"),
    (Rule::RowPastLast, Kind::Legal, "row-past-last"),
    (Rule::BoxNotReady, Kind::BoxRun, "box-not-ready"),
    (Rule::FixedNumber, Kind::Fixed, "fixed-number"),
    (Rule::PlaceFromOne, Kind::VerdictProgram, "place-from-one"),
    (Rule::LabelsFromOne, Kind::ReferenceProgram, "labels-from-one"),
    (Rule::RepeatedRow, Kind::ReadScenario, "repeated-row"),
    (Rule::ZeroCount, Kind::ScenarioSweep, "zero-count"),
    (Rule::NoRowIsOrder, Kind::ReadScenario, "no-row-is-order"),
    (Rule::RoomFirst, Kind::ReadScenario, "room-first"),
    (Rule::PastSlotsCleared, Kind::ReadScenario, "past-slots-cleared"),
    (Rule::OneReleaseShort, Kind::WriteScenario, "one-release-short"),
    (Rule::PlaceInList, Kind::WriteScenario, "place-in-list"),
    (Rule::SlotsFromOne, Kind::PlayProgram, "slots-from-one"),
    (Rule::RestOfListKept, Kind::Labels, "rest-of-labels-kept"),
    (Rule::LabelAtLength, Kind::Labels, "label-at-length"),
    (Rule::LabelsRoomFirst, Kind::Labels, "labels-room-first"),
    (Rule::RowPastLast, Kind::Write, "row-past-last-written"),
    (Rule::LabelsBeforeSheet, Kind::Write, "labels-before-sheet"),
    (Rule::RoomBeforeLabels, Kind::Write, "room-before-labels"),
    (Rule::EmptyLabel, Kind::Write, "empty-label"),
    (Rule::LabelOfSeventeen, Kind::Write, "label-of-seventeen"),
    (Rule::BlankInLabel, Kind::Write, "blank-in-label"),
    (Rule::LabelPastTilde, Kind::Write, "label-past-tilde"),
    (Rule::PartCut, Kind::Write, "part-cut"),
    (Rule::PartWraps, Kind::Write, "part-wraps"),
    (Rule::MissingLabels, Kind::Write, "missing-labels"),
    (Rule::LastRowAtFault, Kind::Write, "last-row-at-fault"),
    (Rule::BudgetFirst, Kind::Write, "budget-first"),
    (Rule::LongForm, Kind::Write, "long-form"),
    (Rule::FrontWritten, Kind::Write, "front-written"),
    (Rule::MarkWritten, Kind::Write, "mark-written"),
    (Rule::PastBytesCleared, Kind::Write, "past-bytes-cleared"),
];

/// No rule.
const NONE: usize = usize::MAX;

/// The rule that is broken in this process.
static BROKEN: AtomicUsize = AtomicUsize::new(NONE);

/// Breaks the rule of this name from now on; the kind of case that has to show it, or nothing where no rule has the name.
pub fn break_rule(name: &str) -> Option<Kind> {
    let (rule, kind, _) = RULES.iter().find(|(_, _, known)| *known == name)?;
    BROKEN.store(*rule as usize, Relaxed);
    Some(*kind)
}

/// Whether this rule is the broken one.
pub fn broken(rule: Rule) -> bool {
    BROKEN.load(Relaxed) == rule as usize
}

/// Whether every rule is kept.
pub fn all_kept() -> bool {
    BROKEN.load(Relaxed) == NONE
}
