#!/usr/bin/env python3
"""Shows that .ci/costs.py fails: each broken copy of a log has to give the fault that is named beside it, and the log as it stands, or of a slower machine, none."""
import re
import sys

sys.dont_write_bytecode = True
from costs import SURELY, crates, faults, passed_over

NAMES = ["basis", "sheet", "verdict"]
KEPT = {"basis": ["other_mark"], "sheet": ["first", "second", "third"]}
LOG = """enum basis::refusal::Refusal: proved
rt: basis proved (4 s)
rt: sheet proved (29 s)
rt: verdict proved (12 s)
rt: must-fail basis/other_mark: refused, as it must be (first at src/mark.rt:12:9; 4 s)
rt: must-fail sheet/first: refused, as it must be (first at proofs/legal/is_legal/Proof.antt:30:15; 30 s)
rt: must-fail sheet/second: refused, as it must be (30 s)
rt: must-fail sheet/third: refused, as it must be (first at src/legal.rt:3:5; 40 s)
rt: verdict ran as nobody, and wrote what its file 'stdout' has (0 s)
12 passed, 0 failed
"""
FOUR = {**KEPT, "sheet": [*KEPT["sheet"], "fourth"]}
FOURTH = "rt: must-fail sheet/fourth: refused, as it must be (30 s)\n"

# The log of a run that prints no seconds: one crate is proved, the others were by an earlier run.
PLAIN = """== basis
fn basis::mark::begins_with: proved
logic=proved functions=1 sum=dac8208d650f15bf native=nat,char,string
rt: basis proved
rt: sheet is kept: an earlier run on this machine proved the same files over the same libraries
rt: basis: trying its must-fail edits (1)
rt: verdict is kept: an earlier run on this machine proved the same files over the same libraries
== verdict: its tests
rt: verdict: its tests are proved
rt: sheet: 3 of its 3 must-fail edits were tried by an earlier run on this machine, and nothing that they stand on has changed
rt: must-fail basis/other_mark.edit: refused, as it must be: src/mark.rt:12:9: error: `returns`: the two sides differ
rt: must-fail sheet/first.edit: refused, as it must be: ./proofs/legal/is_legal/Answers.antt:30:15: error: `returns`: it has (29 s)
rt: must-fail sheet/second.edit: refused, as it must be
rt: must-fail sheet/third.edit: refused, as it must be (only by a limit of the prover, which gave no verdict, so this says less of the contract: choose a change that it refuses sooner): x
rt: verdict ran, and wrote what its file stdout has
rt: ok; handles allowed: none; must-fail edits: 4 refused; done in this run: 1 of the 4 proofs (of crates and of their tests) and 1 of the 4 must-fail edits; the others are kept from earlier runs of the same files on this machine
8 passed, 0 failed
"""
# The same where rt prints seconds of what is proved in the run.
PARTLY = PLAIN.replace("rt: basis proved\n", "rt: basis proved (4 s)\n")
SHEET_IS_KEPT = "rt: sheet is kept: an earlier run on this machine proved the same files over the same libraries\n"


def slower(log, times):
    """The log of a machine that takes so many times as long."""
    return re.sub(r"(\d+) s\)", lambda m: f"{round(int(m.group(1)) * times)} s)", log)


# More edits of one crate, and what a log without seconds says of so many of them.
MANY = [f"edit_{i}" for i in range(11)]


def many(count):
    """The lines of a log that say of so many of these edits that they are refused."""
    return "".join(f"rt: must-fail sheet/{label}.edit: refused, as it must be\n" for label in MANY[:count])


SLOW = LOG.replace("29 s", "50 s").replace("30 s", "50 s").replace("40 s", "50 s")

# What is changed, the edits that the crates have, the log, and a part of what has to be told, or nothing.
CASES = [
    ("as it stands", KEPT, LOG, None),
    ("a slower machine", KEPT, slower(LOG, 3), None),
    ("one slow edit on a busy machine", KEPT, LOG.replace("40 s", "90 s"), None),
    ("a machine that is busy while the edits are tried", KEPT, LOG.replace("30 s", "70 s").replace("40 s", "90 s"), None),
    ("an edit more", FOUR, LOG + FOURTH, "the crate sheet has 4 edits of 29 s each, 116 s together: 109 s is the most"),
    ("an edit more where the small crate is fast", FOUR, LOG.replace("4 s)", "2 s)") + FOURTH, "the crate sheet has 4 edits of 29 s each, 116 s together: 90 s is the most"),
    ("an edit more where the small crate is kept", FOUR, LOG.replace("rt: basis proved (4 s)", "rt: basis is kept: x").replace("; 4 s)", ")") + FOURTH, "116 s together: 90 s is the most"),
    ("an edit more, without seconds of its own", FOUR, LOG + FOURTH.replace(" (30 s)", ""), "the crate sheet has 4 edits of 29 s each, 116 s together: 109 s is the most"),
    ("a slower crate", KEPT, SLOW, "the crate sheet has 3 edits of 50 s each"),
    ("a slower crate on a slower machine", KEPT, slower(SLOW, 2), "the crate sheet has 3 edits of 100 s each, 300 s together: 218 s is the most"),
    ("a crate that is kept, beside one that is too slow", KEPT, SLOW.replace("rt: verdict proved (12 s)", "rt: verdict is kept: x"), "the crate sheet has 3 edits of 50 s each"),
    ("a crate that is not proved", KEPT, LOG.replace("rt: verdict proved (12 s)", "rt: verdict NOT PROVED"), "does not say that the crate verdict is proved"),
    ("a crate of which only the tests are proved", KEPT, LOG.replace("rt: verdict proved (12 s)", "rt: verdict: its tests are proved"), "does not say that the crate verdict is proved"),
    ("an edit that was not tried", {**KEPT, "basis": ["other_mark", "no_mark"]}, LOG, "does not say that the edit basis/no_mark is refused"),
    ("an edit that is bad", KEPT, LOG.replace("sheet/second: refused, as it must be (30 s)", "sheet/second: BAD EDIT: it changes nothing"), "does not say that the edit sheet/second is refused"),
    ("an empty log", KEPT, "", "does not say that the crate basis is proved"),
    ("no seconds", KEPT, PLAIN, None),
    ("some seconds", KEPT, PARTLY, None),
    ("no seconds, and a crate that is not proved", KEPT, PLAIN.replace(SHEET_IS_KEPT, ""), "does not say that the crate sheet is proved"),
    ("no seconds, and an edit that is not refused", KEPT, PLAIN.replace("first.edit: refused, as it must be", "first.edit: NOT REFUSED"), "does not say that the edit sheet/first is refused"),
    ("no seconds, and a bad edit", KEPT, PLAIN.replace("other_mark.edit: refused, as it must be", "other_mark.edit: BAD EDIT"), "does not say that the edit basis/other_mark is refused"),
    ("no seconds, and as many edits as a crate may have", {**KEPT, "sheet": MANY[:10]}, PLAIN + many(10), None),
    ("no seconds, and an edit more than a crate may have", {**KEPT, "sheet": MANY}, PLAIN + many(11), "the crate sheet, of which the log has no seconds, has 11 edits: 10 is the most"),
    ("no seconds, and an edit that was not tried", FOUR, PLAIN, "does not say that the edit sheet/fourth is refused"),
]

# The same for what the gate fails by.
SURE_CASES = [
    ("a slower crate, told and let pass", KEPT, SLOW, None),
    ("an edit more than a crate without seconds may have, surely", {**KEPT, "sheet": MANY}, PLAIN + many(11), "has 11 edits: 10 is the most"),
    ("a crate that is surely too slow", KEPT, SLOW.replace("50 s", "150 s"), "the crate sheet has 3 edits of 150 s each"),
    ("a crate that is not proved, surely", KEPT, LOG.replace("rt: verdict proved (12 s)", ""), "does not say that the crate verdict is proved"),
    ("an edit that is not refused, surely", KEPT, PLAIN.replace("first.edit: refused, as it must be", "first.edit: NOT REFUSED"), "does not say that the edit sheet/first is refused"),
]

# The log, and the crates that are passed over since it has no seconds of them.
OVER_CASES = [("all seconds", LOG, []), ("no seconds", PLAIN, NAMES), ("some seconds", PARTLY, ["sheet", "verdict"])]


def main():
    missed = 0
    for name, kept, log, fault, times in [(*case, 1) for case in CASES] + [(*case, SURELY) for case in SURE_CASES]:
        found = faults(NAMES, kept, log, times)
        if found if fault is None else not any(fault in sentence for sentence in found):
            print(f"costs_test: {name}: found {found}")
            missed += 1
    for name, log, over in OVER_CASES:
        if passed_over(NAMES, log) != over:
            print(f"costs_test: {name}: passed over {passed_over(NAMES, log)}")
            missed += 1
    if crates("# The crates.\nlow:\napp: low # the last\nffi staticlib: low\n") != ["low", "app", "ffi"]:
        print("costs_test: the names of a list of crates are read wrongly")
        missed += 1
    print(f"costs_test: {len(CASES) + len(SURE_CASES) + len(OVER_CASES) + 1} cases, {missed} judged wrongly")
    sys.exit(1 if missed else 0)


if __name__ == "__main__":
    main()
