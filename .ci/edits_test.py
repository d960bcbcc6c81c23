#!/usr/bin/env python3
"""Shows that .ci/edits.py fails: each broken copy of a log's end has to give the fault that is named beside it, and the log as it stands none."""
import sys

sys.dont_write_bytecode = True
from edits import faults

ALL = "rt: ok; handles allowed: none; must-fail edits: 4 refused; every proof and must-fail edit was done in this run"
SOME = "rt: ok; handles allowed: none; must-fail edits: 4 refused; done in this run: 1 of the 6 proofs (of crates and of their tests) and 0 of the 4 must-fail edits; the others are kept from earlier runs of the same files on this machine"
NONE = "rt: ok; handles allowed: none; every proof and must-fail edit was done in this run"
BAD = SOME.replace("4 refused", "3 refused, 1 bad")
COUNT = "10 passed, 0 failed"

# What is changed, how many edits there are, the lines of the log, and a part of what has to be told, or nothing.
CASES = [
    ("as it stands", 4, ["rt: app ran", ALL, COUNT], None),
    ("some of it kept", 4, [SOME, COUNT], None),
    ("an edit by a limit", 4, [SOME.replace("4 refused", "4 refused, 1 of them only by a limit"), COUNT], None),
    ("none bad, and said so", 4, [SOME.replace("4 refused", "4 refused, 0 bad"), COUNT], None),
    ("no edits", 0, [NONE, COUNT], None),
    ("a bad edit", 4, [BAD, COUNT], "1 edits are bad"),
    ("a bad edit more than there are files", 3, [BAD, COUNT], "1 edits are bad"),
    ("ten bad edits, one by a limit", 4, [SOME.replace("4 refused", "4 refused, 1 of them only by a limit, 10 bad"), COUNT], "10 edits are bad"),
    ("bad edits in other words", 4, [SOME.replace("4 refused", "4 refused, some bad"), COUNT], "some edits are bad"),
    ("only bad edits", 1, [SOME.replace("4 refused", "0 refused, 1 bad"), COUNT], "not each is refused"),
    ("an edit that is not refused", 5, [SOME, COUNT], "of 5 edits not each is refused"),
    ("nothing said of the edits", 4, [NONE, COUNT], "does not say once what the edits came to"),
    ("edits where there are none", 0, [ALL, COUNT], "does not say once what the edits came to"),
    ("something failed", 4, [ALL, "10 passed, 1 failed"], "the last line is no count"),
    ("nothing passed", 4, [ALL, "0 passed, 0 failed"], "the last line is no count"),
    ("not the gate", 4, [ALL, COUNT + " (low and the crates below alone: not the gate)"], "the last line is no count"),
    ("no line ok", 4, ["rt: FAILED: low", COUNT], "the line above the count is not 'rt: ok'"),
    ("a line ok that stands elsewhere", 4, [ALL, "rt: app ran", COUNT], "the line above the count is not 'rt: ok'"),
    ("no count", 4, [ALL], "the last line is no count"),
    ("an empty log", 0, [], "the last line is no count"),
]


def main():
    missed = 0
    for name, edits, lines, fault in CASES:
        found = faults(edits, "".join(line + "\n" for line in lines))
        if found if fault is None else not any(fault in sentence for sentence in found):
            print(f"edits_test: {name}: found {found}")
            missed += 1
    print(f"edits_test: {len(CASES)} logs, {missed} judged wrongly")
    sys.exit(1 if missed else 0)


if __name__ == "__main__":
    main()
