#!/usr/bin/env python3
"""Counts older forms in src/, for docs/DESIGN-PASS.md: run at the top, with the numbers of the points wanted, or all; --list prints each place.

1 results by hand, 2 twins, 3 loops that count, 4 copies and conversions by hand, 5 facts and parameters that stand in three contracts or more, 6 lengths beside buffers,
7 switches on a step, 8 answers that only say `search rules`. It goes by text, and says what it looked for; docs/DESIGN-PASS.md says of each place what became of it.
"""
import glob
import re
import sys

FILES = {path: open(path, encoding="utf-8").read() for path in sorted(glob.glob("crates/*/src/*.rt"))}
FUNCTION = re.compile(r"^( *)(?:#\[[^\n]*\]\n *)?((?:pub(?:\(crate\))? )?(?:extern \"C\" )?fn (\w+).*?)^\1\}$", re.M | re.S)
REFUSALS = r"Refusal|Number|HeadRead|Passed|LabelRead|RowRead|EntryRead|Margin|Tried|Input|Reading|Started|Slotted|ScenarioRead|SlotRead|Written|Judgement|Judged|Results|Played|Done|Ran|Begun"


def functions():
    for path, text in FILES.items():
        for found in FUNCTION.finditer(text):
            yield path, text[: found.start(2)].count("\n") + 1, found.group(3), found.group(2)


def lines(pattern):
    for path, text in FILES.items():
        for at, line in enumerate(text.split("\n"), 1):
            if re.search(pattern, re.sub(r"//.*", "", line)):
                yield f"{path}:{at}: {line.strip()}"


def body(text):
    """What a function does: from its opening brace on, without its clauses."""
    return re.sub(r"//[^\n]*", "", text[text.index("\n{") if "\n{" in text else text.find("{") :])


def results():
    """Enums with a variant for a refusal or for nothing, fields for one, functions that answer one, refusals by number, and flags beside values."""
    yield from lines(r"^ +(Refused|Failed|NoJob|NoBound|Fails|Accepted)(\(.*\))?,$")
    yield from lines(r"^ +(pub )?refusal: Refusal,$")
    yield from (f"{path}:{at}: {name}" for path, at, name, text in functions() if re.search(r"-> (?:%s)\b(?! *<)" % REFUSALS, text.split("{")[0]))
    yield from lines(r"Refused\([0-9]")
    yield from lines(r"^ +pub (more|ended|failed|holds): bool,$")


def twins():
    """Functions whose text is another's but for names and numbers."""
    shapes = {}
    for path, at, name, text in functions():
        flat = re.sub(r"\s+", " ", re.sub(r"(requires|ensures)[^\n]*", "", re.sub(r"//[^\n]*", "", text)))
        names, parts = {}, []
        for word in re.findall(r"\w+|[^\w\s]", flat):
            known = word in ("fn", "let", "mut", "if", "else", "while", "for", "in", "return", "match", "self", "Self", "pub", "crate")
            parts.append(word if known or not word[0].isalnum() else str(names.setdefault(word, len(names))))
        if len(parts) > 24:
            shapes.setdefault(" ".join(parts).replace("pub ( crate ) ", "").replace("pub ", ""), []).append(f"{path}:{at}: {name}")
    for group in shapes.values():
        if len(group) > 1:
            yield from (f"{place} = {group[0].split(': ')[1]}" for place in group[1:])


def loops():
    """While loops whose condition has a variable that the body counts up or down by one or two."""
    for path, text in FILES.items():
        for found in re.finditer(r"^( *)while ([^\n]*)\{\n(.*?)^\1\}", text, re.M | re.S):
            counted = set(re.findall(r"\b(\w+) (?:\+|-)= [12];|\b(\w+) = \2 [+-] 1;", found.group(3)))
            names = {a or b for a, b in counted} | set(re.findall(r"\b(\w+) = \1 [+-] 1;", found.group(3)))
            if any(re.search(rf"\b{name}\b", found.group(2)) for name in names):
                yield f"{path}:{text[: found.start()].count(chr(10)) + 1}: while {found.group(2).strip()}"


def by_hand():
    """Functions that copy, compare or convert what a derive, a conversion or a method of the library does."""
    wanted = r"copy|clear|clear_from|flag|is_less|reaches|covers|lesser|greater|minus|word_number|bound_number|is_bound|is_accepted|one_release|check_entry|put_all|put_some|is_zero_from|begins_with|keep_rest|row_cell|cell_by|row_of"
    return (f"{path}:{at}: {name}" for path, at, name, _ in functions() if re.fullmatch(wanted, name))


def repeated():
    """Facts of `requires`, and runs of three parameters, that stand in the contracts of three functions of a crate or more."""
    facts, runs = {}, {}
    for path, at, name, text in functions():
        crate = path.split("/")[1]
        head = text.split("\n{")[0]
        for clause in re.findall(r"requires(?: \w+)? \{(.*?)\}$", head, re.M | re.S):
            for fact in re.split(r" × |\n", clause):
                fact = re.sub(r"\s+", " ", fact).strip(" ()")
                if fact:
                    facts.setdefault((crate, fact), set()).add(name)
        listed = re.search(r"fn \w+(?:<.*?>)?\((.*?)\)(?: ->|\s*$|\n)", head, re.S)
        taken = [p.strip() for p in (listed.group(1) if listed else "").replace("\n", " ").split(",") if p.strip()]
        for i in range(len(taken) - 2):
            runs.setdefault((crate, ", ".join(taken[i : i + 3])), set()).add(name)
    for (crate, what), names in sorted(facts.items()) + sorted(runs.items()):
        if len(names) > 2:
            yield f"{crate}: {what}: {len(names)}"


def lengths():
    """A length kept beside a buffer, and fields that count the rows of an array."""
    yield from lines(r"^ +(pub )?(long|length|count): (usize|u64),$")


def switches():
    """Matches on which of several texts, rows or sheets is meant, by an enum of no values or by a number."""
    yield from lines(r"^ +if (number|j|at) == [0-9] \{$")
    yield from lines(r"^ +(Labels|File)::\w+ => ")


def answers():
    """Answers that are no more than `search rules`."""
    for path in sorted(glob.glob("crates/*/proofs/**/Answers.antt", recursive=True)):
        for at, line in enumerate(open(path, encoding="utf-8"), 1):
            if re.search(r" = search rules$", line.rstrip()):
                yield f"{path}:{at}: {line.strip()}"


POINTS = {"1": results, "2": twins, "3": loops, "4": by_hand, "5": repeated, "6": lengths, "7": switches, "8": answers}

if __name__ == "__main__":
    wanted = [word for word in sys.argv[1:] if word in POINTS] or list(POINTS)
    for point in wanted:
        places = list(POINTS[point]())
        print(f"{point}: {len(places)}  {POINTS[point].__doc__.strip()}")
        if "--list" in sys.argv:
            print("\n".join(f"    {place}" for place in places))
