#!/usr/bin/env python3
"""Shows that .ci/promises.py fails: each broken copy of the page, of a law or of a function has to give the fault that is named beside it, and the project as it stands none."""
import os
import sys

sys.dont_write_bytecode = True
from promises import PAGE, Page, Sources

ROOT = os.path.join(os.path.dirname(os.path.abspath(__file__)), "..")
LEGAL = "| `sheet::is_legal` | `legal`, `sheet_in` | `is_legal_same` | `crates/sheet/specs/Legal.antt`, `crates/sheet/specs/Lists.antt`, `crates/sheet/proofs/Same.antt` |\n"
FRESH = "| `states::fresh` | `fresh`, `started` | `fresh_same` | `crates/machine/specs/Answers.antt`, `crates/states/specs/Values.antt`, `crates/states/proofs/Same.antt` |\n"
SAME = "crates/sheet/proofs/Same.antt"
CODE = "crates/sheet/src/legal.rt"
LAW = "pub is_legal_same : (l : List ℕ) (r r' : Bool) → r ≡ legal (sheet_in l) → r' ≡ legal (sheet_in l) → r ≡ r'"

# What is broken, the file, the old text and the new one, and a part of the fault that has to be found.
BROKEN = [
    ("a function is missing", PAGE, LEGAL, "", "sheet::is_legal is not in"),
    ("a function stands twice", PAGE, LEGAL, LEGAL + LEGAL, "stands there twice"),
    ("a function that is none", PAGE, "`sheet::is_legal` | ", "`sheet::is_lawful` | ", "sheet::is_lawful, which is no public function"),
    ("a definition that the ensures does not name", PAGE, "`legal`, `sheet_in` | `is_legal_same`", "`legal_row` | `is_legal_same`", "its ensures does not name legal_row"),
    ("a record field for a definition", PAGE, "`legal`, `sheet_in` | `is_legal_same`", "`some_rows` | `is_legal_same`", "no file beside it has some_rows"),
    ("no definition", PAGE, "`legal`, `sheet_in` | `is_legal_same`", "legal | `is_legal_same`", "no definition or no law"),
    ("the definition of another file with its name", PAGE, FRESH, FRESH.replace("specs/Answers", "specs/Slot"), "no file beside it has fresh"),
    ("a law of another definition", PAGE, "`is_legal_same`", "`count_same`", "the type of count_same does not name legal"),
    ("a record field for a law", PAGE, "`is_legal_same` | ", "`some_rows` | ", "no file beside it has some_rows"),
    ("a law of no file", PAGE, "`is_legal_same`", "`is_legal_alike`", "no file beside it has is_legal_alike"),
    ("no law", PAGE, "`is_legal_same`", "is_legal_same", "no definition or no law"),
    ("a file that is not there", PAGE, LEGAL, LEGAL.replace("specs/Legal.antt`,", "specs/Legal.antt`, `crates/sheet/specs/List.antt`,"), "there is no crates/sheet/specs/List.antt"),
    ("a file that has nothing of it", PAGE, LEGAL, LEGAL.replace("specs/Legal.antt`,", "specs/Legal.antt`, `crates/sheet/specs/Values.antt`,"), "Values.antt has none of the names"),
    ("a cell too few", PAGE, LEGAL, LEGAL.replace(" | `is_legal_same`", ""), "has not the cells of its heading"),
    ("another table's theorem that is none", PAGE, "`no_job_is_late` | `crates/green/proofs/Theorem.antt`", "`no_job_is_early` | `crates/green/proofs/Theorem.antt`", "no file beside it has no_job_is_early"),
    ("another table's record field for a theorem", PAGE, "`number_is_below` | `crates/numbers/proofs/Encoding.antt`", "`number_is_below`, `some_threads` | `crates/numbers/proofs/Encoding.antt`, `crates/sheet/specs/Legal.antt`", "no file beside it has some_threads"),
    ("a wrong answer of no function", PAGE, "| `sheet::clear_from`: the list", "| `sheet::clear_to`: the list", "sheet::clear_to, which is no public function"),
    ("a wrong answer of another promise", PAGE, "| `sheet::number_at`: a number", "| `sheet::count`: a number", "sheet::number_at: the table of wrong answers has not two theorems"),
    ("a theorem of another promise among two", PAGE, "`first_past`, `first_past_is_shut_out`, ", "`first_threads`, `threads_for_rows_is_shut_out`, ", "sheet::number_at: the table of wrong answers has not two theorems"),
    ("one wrong answer alone", PAGE, "`first_past`, `first_past_is_shut_out`, ", "", "sheet::number_at: the table of wrong answers has not two theorems"),
    ("no section of exceptions", PAGE, "\n## Exceptions\n", "\n## Others\n", "has no section Exceptions"),
    ("a law that speaks of one answer", SAME, LAW, "pub is_legal_same : (l : List ℕ) (r r' : Bool) → r ≡ legal (sheet_in l) → r ≡ r", "does not name legal of"),
    ("a law of another definition under its name", SAME, LAW, LAW.replace("legal (sheet_in l)", "other (sheet_in l)"), "the type of is_legal_same does not name legal"),
    ("a law of another file's definition, passed on", "crates/sheet/proofs/Names.antt", "specs.Legal.{legal, ", "specs.Limits.{legal, ", "the type of is_legal_same does not name legal"),
    ("a law that is no equality of answers", SAME, LAW, LAW + " → r ≡ legal (sheet_in l)", "does not end in the equality"),
    ("a law without a clause", SAME, "\nis_legal_same l = same (legal (sheet_in l))\n", "\n", "no file beside it has is_legal_same"),
    ("another definition of the same name", CODE, "specs.Legal.{legal_row, legal}", "specs.Limits.{legal_row, legal}", "which is not beside it"),
    ("another definition under its name", CODE, "specs.Legal.{legal_row, legal}", "specs.Legal.{legal_row, legal_at as legal}", "its ensures does not name legal"),
    ("a field of its name", CODE, "result ≡ legal (sheet_in list.now)", "result ≡ list.legal (sheet_in list.now)", "its ensures does not name legal"),
    ("a law that names a field of its name", SAME, LAW, LAW.replace("legal (sheet_in l)", "(sheet_in l).legal"), "the type of is_legal_same does not name legal"),
    ("a requires", CODE, "pub fn is_legal(list: &[u64]) -> bool\n", "pub fn is_legal(list: &[u64]) -> bool\n    requires { ⊥ }\n", "sheet::is_legal has a requires"),
    ("no ensures", CODE, "    ensures { result ≡ legal (sheet_in list.now) }\n", "", "sheet::is_legal has not one ensures"),
    ("an ensures more", CODE, "    ensures { result ≡ legal (sheet_in list.now) }\n", "    ensures one { result ≡ legal (sheet_in list.now) }\n    ensures other { result ≡ true }\n", "sheet::is_legal has not one ensures"),
    ("a function more", CODE, "// Whether m, n and each", "pub fn more(list: &[u64]) -> bool {\n    true\n}\n\n// Whether m, n and each", "sheet::more is not in"),
]


def main():
    sources, missed = Sources(ROOT), 0
    unchanged = Page(sources)
    for fault in unchanged.faults:
        print("promises_test: as it stands:", fault)
    for name, path, old, new, fault in BROKEN:
        text = sources.text(path)
        if text.count(old) != 1:
            print(f"promises_test: {name}: what it changes is {text.count(old)} times in {path}")
            missed += 1
        elif not any(fault in sentence for sentence in Page(sources.changed(path, text.replace(old, new))).faults):
            print(f"promises_test: {name} is not found")
            missed += 1
    print(f"promises_test: {len(BROKEN)} broken copies, {missed} not found")
    sys.exit(1 if missed or unchanged.faults else 0)


if __name__ == "__main__":
    main()
