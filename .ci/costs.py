#!/usr/bin/env python3
"""costs.py LOG: holds what the wrong programs of each crate cost, by the seconds that `rt ci` has printed into LOG.

An edit of must-fail/ costs a check of its whole crate, so a crate's cost is its edits times the seconds of one check: the least of the seconds printed for its proof and for each
of its edits, since a busy machine makes a check longer and none makes it shorter. It may be LIMIT seconds on a machine on which the crate SMALL takes BASE seconds, as it did where the limit was set. Where that crate takes longer, on a slower machine or a busy one, the limit grows in the
same measure; where it takes less, or the log has no seconds of it, the limit stays.

A crate over the limit is told. What rt prints are seconds of a clock, and a machine that other work slows down from one minute to the next makes a check several times as long; so the
gate fails only where a crate is over SURELY times the limit, or where the log does not say of a crate that it is proved, in this run or an earlier one, or of an edit that it is
refused. A crate has no seconds where an earlier run proved it, and where rt prints none: it may then have MOST edits, and the script says of which crates that is so.
"""
import glob
import os
import re
import sys

LIMIT = 90
SMALL = "basis"
BASE = 3.3
SURELY = 2
MOST = 10


def crates(text):
    """The crates that a list of crates names: the first word of each line."""
    lines = [line.split("#")[0].strip() for line in text.splitlines()]
    return [line.split(":")[0].split()[0] for line in lines if line]


def told(log):
    """Of each crate that is proved the seconds of its proof, and of each of its edits that is refused; None where there are none."""
    proofs, edits = {}, {}
    for name in re.findall(r"^rt: (\S+) is kept: ", log, re.M):
        proofs[name] = None
    for name, took in re.findall(r"^rt: (\S+) proved(?: \((\d+) s\))?$", log, re.M):
        proofs[name] = int(took) if took else None
    for name, label, rest in re.findall(r"^rt: must-fail (\w+)/(\S+?)(?:\.edit)?: refused, as it must be(.*)$", log, re.M):
        took = re.fullmatch(r" \((?:.*; )?(\d+) s\)", rest)
        edits.setdefault(name, {})[label] = int(took.group(1)) if took else None
    return proofs, edits


def checks(log):
    """Of each crate with seconds those of one check, the least that are printed."""
    proofs, edits = told(log)
    printed = {name: [took for took in [proofs[name], *edits.get(name, {}).values()] if took is not None] for name in proofs}
    return {name: min(took) for name, took in printed.items() if took}


def faults(names, kept, log, times=1):
    """A sentence for each crate over so many times the limit, or of which the log does not say what it has to; `kept` has the edits of each crate by their names."""
    proofs, edits = told(log)
    out = [f"the log does not say that the crate {name} is proved" for name in names if name not in proofs]
    for name in names:
        refused = set(edits.get(name, {}))
        out += [f"the log does not say that the edit {name}/{label} is refused" for label in sorted(set(kept.get(name, [])) - refused)]
    check = checks(log)
    limit = LIMIT * max(1, check.get(SMALL, 0) / BASE)
    for name in names:
        cost = len(edits.get(name, {})) * check.get(name, 0)
        if cost > times * limit:
            out.append(
                f"the crate {name} has {len(edits[name])} edits of {check[name]:.0f} s each, {cost:.0f} s together: {limit:.0f} s is the most; "
                "say a wrong rule as a theorem, take an edit out, or split the crate"
            )
        if name in proofs and name not in check and len(kept.get(name, [])) > MOST:
            out.append(
                f"the crate {name}, of which the log has no seconds, has {len(kept[name])} edits: {MOST} is the most; say a wrong rule as a theorem, take an edit out, or split the crate"
            )
    return out


def passed_over(names, log):
    """The crates that are proved but have no seconds, so that the number of their edits is held and not what they cost."""
    proofs, check = told(log)[0], checks(log)
    return [name for name in names if name in proofs and name not in check]


def main():
    root = os.path.join(os.path.dirname(os.path.abspath(__file__)), "..")
    with open(os.path.join(root, "crates.txt"), encoding="utf-8") as file:
        names = crates(file.read())
    kept = {name: [os.path.basename(path)[: -len(".edit")] for path in glob.glob(f"{root}/crates/{name}/must-fail/*.edit")] for name in names}
    with open(sys.argv[1], encoding="utf-8") as file:
        log = file.read()
    found = faults(names, kept, log)
    for fault in found:
        print("costs:", fault)
    over = passed_over(names, log)
    if over:
        print(f"costs: held by the number of their edits, since the log has no seconds of them: {' '.join(over)}")
    sure = faults(names, kept, log, SURELY)
    print(
        f"costs: {len(names)} crates, {sum(map(len, kept.values()))} edits, {len(names) - len(over)} crates held by their seconds, {len(found)} over the limit or not told, "
        f"{len(sure)} of them faults"
    )
    sys.exit(1 if sure else 0)


if __name__ == "__main__":
    main()
