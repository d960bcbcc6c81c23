#!/usr/bin/env python3
"""edits.py LOG: holds `rt ci`, which has printed LOG, to every wrong program having been turned away.

An edit of must-fail/ that cannot be applied, compiled or read is a bad one: rt says so and passes all the same, though the edit then shows nothing. So the line `rt: ok`, which stands
right above the count, has to say that as many edits were refused as there are files in must-fail/, and that none is bad; and the count, the last line, that nothing failed.
"""
import glob
import os
import re
import sys


def faults(edits, log):
    """A sentence for each fault of a log, where there are so many edits."""
    lines = log.splitlines()
    said, count = (["", ""] + lines)[-2:]
    out = []
    if not re.fullmatch(r"[1-9]\d* passed, 0 failed", count):
        out.append(f"the last line is no count of what passed with 0 failed: {count}")
    if not said.startswith("rt: ok; "):
        return out + [f"the line above the count is not 'rt: ok': {said}"]
    parts = re.findall(r"; must-fail edits: ([^;]*)", said)
    if len(parts) != (edits > 0):
        return out + [f"the line 'rt: ok' does not say once what the edits came to: {said}"]
    for part in parts:
        refused = re.match(r"(\d+) refused\b", part)
        if not refused or int(refused.group(1)) != edits:
            out.append(f"of {edits} edits not each is refused: {part}")
        out += [f"{number} edits are bad" for number in re.findall(r"(\d+) bad\b", part) if int(number) > 0]
        if "bad" in re.sub(r"\d+ bad\b", "", part):
            out.append(f"some edits are bad: {part}")
    return out


def main():
    root = os.path.join(os.path.dirname(os.path.abspath(__file__)), "..")
    edits = [path for path in glob.glob(f"{root}/crates/*/must-fail/**", recursive=True) if os.path.isfile(path) and not path.endswith(".md")]
    with open(sys.argv[1], encoding="utf-8") as file:
        found = faults(len(edits), file.read())
    for fault in found:
        print("edits:", fault)
    print(f"edits: {len(edits)} edits, {len(found)} faults")
    sys.exit(1 if found else 0)


if __name__ == "__main__":
    main()
