#!/usr/bin/env python3
"""Holds docs/PROMISES.md to the crates.

Of the table of public functions it asks that each public function of a crate stands there once, that it has no `requires` and one `ensures`, that this `ensures` names each
definition listed beside it, imported from a file that is listed and has the definition, and that the type of each law listed names each of these definitions twice, once for each of
the two answers that it makes equal. A law, like every theorem of the other tables, is a name with a clause of its own in a file that is listed, so no field of a record is taken for
one. Of every table it asks that each row has all its cells, and that each file listed is there and has one of the names beside it; and of the table of wrong answers that it has
two theorems at least for each public function, each of which names a definition of that function's promise.
"""
import os
import re
import sys

PAGE = "docs/PROMISES.md"
SHUT_OUT = "_is_shut_out"
NAME = r"[^\s(){};,.]+"


def words(text):
    """(word, owner) of each word of a text, with dots and brackets apart. The owner of what stands right behind a dot is the word right before the dot, or nothing but a mark where that is
    no word; what stands behind no dot has none."""
    out, end = [], None
    for found in re.finditer(NAME, text):
        at, owner = found.start(), None
        if at > 0 and text[at - 1] == ".":
            owner = out[-1][0] if end == at - 1 else ""
        out.append((found.group(), owner))
        end = found.end()
    return out


def spaced(text):
    """The words of a text that are names of their own, and no fields of another."""
    return [word for word, owner in words(text) if owner is None]


class Sources:
    """The files of a project, each read once."""

    def __init__(self, root):
        self.root, self.texts, self.theories = root, {}, {}

    def changed(self, path, text):
        """The same files with another text for one of them."""
        other = Sources(self.root)
        other.texts = self.texts | {path: text}
        other.theories = {file: theory for file, theory in self.theories.items() if file != path}
        return other

    def there(self, path):
        return path in self.texts or os.path.isfile(os.path.join(self.root, path))

    def text(self, path):
        if path not in self.texts:
            with open(os.path.join(self.root, path), encoding="utf-8") as file:
                self.texts[path] = file.read()
        return self.texts[path]

    def theory(self, path):
        if path not in self.theories:
            self.theories[path] = Theory(self.text(path))
        return self.theories[path]

    def home(self, path, name):
        """The file that a name is of, where the one that it is imported from only passes it on."""
        passed = dict(imports(self.text(path), "pub use")) if path and self.there(path) else {}
        return self.home(*passed[name]) if name in passed else path

    def below(self, folder, ending):
        for at, _, files in os.walk(os.path.join(self.root, folder)):
            for name in sorted(files):
                if name.endswith(ending):
                    yield os.path.relpath(os.path.join(at, name), self.root)


class Theory:
    """A file of definitions and laws."""

    def __init__(self, text):
        self.lines = re.sub(r"--[^\n]*", "", text).split("\n")
        self.imports, self.signatures, self.data = dict(imports(text)), {}, set()
        for at, line in enumerate(self.lines):
            found = re.fullmatch(r"(\s*)(?:(?:abbrev|unfoldable) )*pub (record |data )?([^\s:]+)(?:\s+|$)(.*)", line)
            if found and found.group(2):
                self.data.add(found.group(3))
            elif found and found.group(4).startswith(":"):
                self.signatures.setdefault(found.group(3), []).append((at, found.group(1), found.group(4)))

    def signature(self, name):
        """The type of a name with a clause of its own, with the parameters of the modules around it; nothing where there is none."""
        for at, indent, rest in self.signatures.get(name, []):
            if self.has_clause(name, indent, at):
                return " ".join(self.around(indent, at) + [rest] + self.deeper(indent, at))
        return None

    def has_clause(self, name, indent, at):
        """Whether a clause follows the signature, before a line that stands further out."""
        for line in self.lines[at + 1 :]:
            if line.strip() and not line.startswith(indent):
                return False
            if re.match(re.escape(indent + name) + r"(\s|$)", line):
                return True
        return False

    def deeper(self, indent, at):
        """The lines after a line that stand further in."""
        out = []
        for line in self.lines[at + 1 :]:
            if not line.startswith(indent + " "):
                break
            out.append(line)
        return out

    def around(self, indent, at):
        """The heads of the modules that a line stands in."""
        out, width = [], len(indent)
        for line in reversed(self.lines[:at]):
            inner = len(line) - len(line.lstrip())
            if line.strip() and inner < width:
                width = inner
                out.append(line)
        return out

    def has(self, name):
        """Whether the file has this record, this enumeration, or this definition or law."""
        return name in self.data or self.signature(name) is not None


def imports(text, keyword="use"):
    """(name, (file, name there)) of each name that a text imports, or passes on, from the specs or proofs of a crate."""
    for crate, path, what in re.findall(r"^\s*(?:ghost |pub |unfoldable |abbrev )*" + keyword + r" Rattle\.(\w+)\.((?:specs|proofs)[\w.]*?)(\.\{[^}]*\}| as [\w-]+)", text, re.M):
        file = f"crates/{crate}/{path.replace('.', '/')}.antt"
        if what.startswith(" as "):
            yield what[4:], (file, None)
        else:
            for name in what[2:-1].split(","):
                there, _, here = name.strip().partition(" as ")
                yield here.strip() or there, (file, there)


def named(text, name, scope):
    """How often a text names this definition, and the file that it is imported from."""
    count, file = 0, None
    for word, owner in words(text):
        if word != name:
            continue
        if owner is None and name in scope and scope[name][1] == name:
            count, file = count + 1, scope[name][0]
        elif owner in scope and scope[owner][1] is None:
            count, file = count + 1, scope[owner][0]
    return count, file


def head_of(source, at):
    """What stands between a function's name and the brace of its body, its clauses with their braces."""
    i, out = at, ""
    while i < len(source):
        if source[i] == "{" and not re.search(r"(requires|ensures)(\s+\w+)?\s*$", out):
            return out
        if source[i] == "{":
            depth, j = 0, i
            while True:
                depth += {"{": 1, "}": -1}.get(source[j], 0)
                j += 1
                if depth == 0:
                    break
            out += source[i:j]
            i = j
            continue
        out += source[i]
        i += 1
    return out


def public_functions(sources, crate):
    """(name, head, imports) of each public function and method of a crate."""
    for path in sources.below(f"crates/{crate}/src", ".rt"):
        text = sources.text(path)
        scope, source = dict(imports(text)), re.sub(r"//[^\n]*", "", text)
        blocks = [(m.start(), m.group(1)) for m in re.finditer(r"^impl\s+(\w+)", source, re.M)]
        for m in re.finditer(r"\bpub\s+(?:extern\s+\"C\"\s+)?fn\s+(\w+)", source):
            inside = source[: m.start()].rfind("\n}")
            owners = [who for at, who in blocks if inside < at < m.start()]
            yield (owners[-1] + "::" if owners else "") + m.group(1), head_of(source, m.end()), scope


def crates(sources):
    """The crates that crates.txt names: the first word of each line."""
    for line in sources.text("crates.txt").splitlines():
        line = line.split("#")[0].strip()
        if line:
            yield line.split(":")[0].split()[0]


def tables(sources):
    """(section, cells, how many its heading has) of each row of each table, headings left out."""
    section, above, width = "", None, 0
    for line in sources.text(PAGE).splitlines() + [""]:
        if line.startswith("## "):
            section = line[3:].strip()
        if not line.startswith("|"):
            above = None
            continue
        cells = [cell.strip() for cell in line.strip().strip("|").split("|")]
        if above is None:
            above, width = cells, len(cells)
        elif not re.fullmatch(r"\|[\s:|-]+\|", line):
            yield section, cells, width


def listed(cell):
    return re.findall(r"`([^`]+)`", cell)


class Page:
    """The page of promises held to the crates: `faults` has a sentence for each fault."""

    def __init__(self, sources):
        self.sources, self.faults, self.functions, self.theory = sources, [], {}, sources.theory
        self.wrong = {}
        for section, cells, width in tables(sources):
            self.row(section, cells, width)
        found = [(f"{crate}::{name}", head, scope) for crate in crates(sources) for name, head, scope in public_functions(sources, crate)]
        for full, head, scope in found:
            self.function(full, head, scope)
        self.count = len(found)
        for full in (self.functions.keys() | self.wrong.keys()) - {full for full, _, _ in found}:
            self.fault(f"{PAGE} names {full}, which is no public function")
        if "\n## Exceptions\n" not in sources.text(PAGE):
            self.fault(f"{PAGE} has no section Exceptions")

    def fault(self, sentence):
        self.faults.append(sentence)

    def row(self, section, cells, width):
        """One row: all its cells, its files, and the names in them."""
        where = f"{PAGE}, {section}: {cells[0]}"
        if len(cells) != width or any(not cell for cell in cells):
            return self.fault(f"{where} has not the cells of its heading")
        names = [name for cell in cells[1:-1] for name in listed(cell)]
        files = listed(cells[-1])
        if not files or not names:
            return self.fault(f"{where} names no file, or nothing that is in one")
        for path in files:
            if not self.sources.there(path):
                self.fault(f"{where}: there is no {path}")
        files = [path for path in files if self.sources.there(path)]
        for name in names:
            if not any(self.theory(path).has(name) for path in files):
                self.fault(f"{where}: no file beside it has {name}")
        for path in files:
            if not any(self.theory(path).has(name) for name in names):
                self.fault(f"{where}: {path} has none of the names beside it")
        if section == "Wrong answers":
            types = [self.theory(path).signature(name) for path in files for name in names if name.endswith(SHUT_OUT)]
            for function in listed(cells[0]):
                self.wrong.setdefault(function, []).extend(filter(None, types))
        if section == "Public functions":
            functions = listed(cells[0])
            if len(functions) != 1 or functions[0] in self.functions:
                return self.fault(f"{where} is not one function, or stands there twice")
            self.functions[functions[0]] = listed(cells[1]), listed(cells[2]), files

    def function(self, full, head, scope):
        """One public function: its clauses, and the definitions and laws of its row."""
        if re.search(r"\brequires\b", head):
            self.fault(f"{full} has a requires")
        clauses = re.findall(r"\bensures\b(.*)", head, re.S)
        if len(re.findall(r"\bensures\b", head)) != 1:
            self.fault(f"{full} has not one ensures")
        if full not in self.functions:
            return self.fault(f"{full} is not in {PAGE}")
        definitions, laws, files = self.functions[full]
        if not definitions or not laws:
            return self.fault(f"{full}: no definition or no law of equal answers is listed")
        promise = clauses[0] if clauses else ""
        for name in definitions:
            count, file = named(promise, name, scope)
            if not count:
                self.fault(f"{full}: its ensures does not name {name}")
            elif file not in files or not self.theory(file).has(name):
                self.fault(f"{full}: {name} of its ensures is imported from {file}, which is not beside it or has no such definition")
            for law in laws:
                self.law(full, law, name, file, files)
        if sum(bool(set(definitions) & set(spaced(signature))) for signature in self.wrong.get(full, [])) < 2:
            self.fault(f"{full}: the table of wrong answers has not two theorems that name a definition of its promise")

    def law(self, full, law, name, file, files):
        """A law of equal answers names the definition, from the same file, once for each of two answers."""
        for path in files:
            signature = self.theory(path).signature(law)
            if signature is None:
                continue
            count, its = named(signature, name, self.theory(path).imports)
            its = self.sources.home(its, name)
            if path == file:
                count, its = spaced(signature).count(name), file
            end = signature.rsplit("→", 1)[-1]
            if count < 2 or its != file:
                self.fault(f"{full}: the type of {law} does not name {name} of {file} for two answers")
            elif "≡" not in end or name in re.findall(NAME, end):
                self.fault(f"{full}: the law {law} does not end in the equality of two answers")
            return
        self.fault(f"{full}: no file beside it has the law {law}")


def main():
    root = os.path.join(os.path.dirname(os.path.abspath(__file__)), "..")
    page = Page(Sources(root))
    for fault in page.faults:
        print("promises:", fault)
    print(f"promises: {page.count} public functions, {len(page.faults)} faults")
    sys.exit(1 if page.faults else 0)


if __name__ == "__main__":
    main()
