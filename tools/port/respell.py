"""Respells what a repository declares in specs/ and proofs/: words in snake case, types in upper camel case, dashes as underscores.

    respell.py ROOT [--also OLD=NEW,..] [--table FILE] [--write]

Without --write it only says what would be done and which names would fall together. It goes by tokens: a name that a library has too stays
in each file that brings it from the library. It leaves alone: names of Rust items, a function's own goals and answers, strings, the
comments but for names in backticks, and the names of files and modules. The old: and new: lines of must-fail edits follow.
"""
import argparse
import collections
import json
import os
import re

import inventory

TOKEN = re.compile(r'[^\s(){}.;,@"«»]+')
RUST_QUIET = re.compile(r'//[^\n]*|b?"(?:\\.|[^"\\])*"')
USE = re.compile(r"\b(?:pub )?use ([^\s;{]+?)\.?(?:\{([^}]*)\})?(?: as (\S+))?(?=[;\s]|$)", re.M)
TYPES = {"type", "record", "data"}
# What the kit's own modules are called: a name behind one of these is not ours.
LIBRARIES = ("mathlib", "native", "lib", "borrow", "denote", "mir")
RESERVED = set(
    "in as data record open use mod pub where let do elim abbrev unfolding unfoldable module mutual ruleset pattern axiom rw simp search omega"
    " grind cc hlevel assumption ground grw first_of tt absurd Unit Type refl".split()
)


class Tree:
    """The files of a repository, what each declares, and what each imports: (of ours, of a library), items and modules."""

    def __init__(self, root):
        self.root, self.crates = root, sorted(os.listdir(f"{root}/crates"))
        self.antt, self.rt = list(inventory.files(root)), []
        for crate in self.crates:
            for folder, _, names in os.walk(f"{root}/crates/{crate}/src"):
                self.rt += [os.path.join(folder, name) for name in names if name.endswith(".rt")]
        self.texts = {path: read(path) for path in self.antt + self.rt}
        self.declared = {path: inventory.declared(self.texts[path]) for path in self.antt}
        self.kinds, self.answers = collections.defaultdict(set), collections.defaultdict(set)
        for path, names in self.declared.items():
            for name, kind in names:
                if kind == "answer":
                    self.answers[path].add(name)
                else:
                    self.kinds[name].add(kind)
        self.items, self.modules = {}, {}
        for path in self.antt + self.rt:
            self.items[path], self.modules[path] = self.imports(path)
        self.library = set().union(*(theirs for _, theirs in self.items.values()))

    def is_ours(self, path):
        first, *rest = path.split(".")
        return first == "Rattle" and rest and rest[0] in self.crates

    def imports(self, file):
        quiet = inventory.QUIET if file.endswith(".antt") else re.compile(r'//[^\n]*|"(?:\\.|[^"\\])*"')
        code = quiet.sub(" ", self.texts[file])
        items, modules = (set(), set()), (set(), set())
        for path, named, alias in USE.findall(code):
            side = 0 if self.is_ours(path) else 1
            if not named:
                modules[side].add(alias or path.split(".")[-1])
            if file.endswith(".rt") and not re.search(r"ghost use " + re.escape(path), code):
                continue
            names = [x.split(" as ")[0].strip() for x in named.split(",")] if named else [path.split(".")[-1]]
            items[side].update(x for x in names if x)
        return items, modules


def read(path):
    with open(path, encoding="utf-8") as file:
        return file.read()


def write(path, text):
    with open(path, "w", encoding="utf-8") as file:
        file.write(text)


def snake(name):
    return re.sub(r"(?<=[a-z0-9])(?=[A-Z])|(?<=[A-Z])(?=[A-Z][a-z])", "_", name).lower()


def new_name(name, is_type):
    if "◌" in name:
        return name
    if is_type:
        return name[0].upper() + name[1:]
    return "_".join(snake(part) if part[:1].islower() else part for part in name.split("-"))


def table_of(tree, also):
    """Old name to new, of those that change; and the lemmas that get _lem, as a definition has their new name."""
    table = {}
    for name, kinds in tree.kinds.items():
        if kinds & TYPES and not name[0].islower() or name[0].isupper() and "-" not in name:
            continue
        if (new := new_name(name, kinds <= TYPES)) != name:
            table[name] = new
    table.update(pair.split("=") for pair in also.split(",") if pair)
    taken, lemmas = collections.defaultdict(set), []
    for name in tree.kinds:
        taken[table.get(name, name)].add(name)
    for new, olds in taken.items():
        if len(olds) > 1:
            lemmas += [name for name in sorted(olds) if "-" in name and "_" in table.get(name, "")]
    for name in lemmas:
        table[name] += "_lem"
    shared = {new: sorted(olds - set(lemmas)) for new, olds in taken.items() if len(olds - set(lemmas)) > 1}
    return table, lemmas, shared


def collisions(tree, table):
    """(file, new name, the old names that would meet in it), where no dot stands before them."""
    for path in tree.antt:
        code = inventory.QUIET.sub(" ", tree.texts[path])
        words = {m[0] for m in TOKEN.finditer(code) if code[m.start() - 1:m.start()] != "."}
        by_new = collections.defaultdict(set)
        for word in words & table.keys() - tree.items[path][1] - tree.answers[path]:
            by_new[table[word]].add(word)
        for new, olds in by_new.items():
            if new in words and new not in table:
                olds.add(new)
            if len(olds) > 1 or new in RESERVED:
                yield path, new, sorted(olds)


class Respelled:
    """One file in the new spelling."""

    def __init__(self, tree, table, fields, path):
        self.table, self.fields, self.answers = table, fields, tree.answers[path]
        self.theirs, (self.modules, self.their_modules) = tree.items[path][1], tree.modules[path]
        self.is_antt, self.text = path.endswith(".antt"), tree.texts[path]

    def word(self, match):
        word = match[0]
        if word not in self.table or word in self.answers:
            return word
        before = match.string[:match.start()]
        if not before.endswith("."):
            return word if word in self.theirs else self.table[word]
        head = re.search(r'([^\s(){};,@"«»]+)\.$', before)
        first = head[1].split(".")[0] if head else ""
        if first in self.their_modules or first in LIBRARIES and first not in self.modules:
            return word
        # a dashed name behind a variable is a field that the prover makes, unless a record of ours has it
        is_made = "-" in word and word not in self.fields and first not in self.modules and first != "Rattle" and not first[:1].isupper()
        return word if is_made else self.table[word]

    def whole(self):
        parts, last = [], 0
        for quiet in (inventory.QUIET if self.is_antt else RUST_QUIET).finditer(self.text):
            parts.append(TOKEN.sub(self.word, self.text[last:quiet.start()]))
            said = quiet[0]
            if said.startswith(("--", "//")):
                said = re.sub(r"`([^`\n]+)`", lambda m: "`" + TOKEN.sub(self.word, m[1]) + "`", said)
            parts.append(said)
            last = quiet.end()
        return "".join(parts) + TOKEN.sub(self.word, self.text[last:])


def respell(tree, table):
    fields = {name for name, kinds in tree.kinds.items() if "field" in kinds}
    written = 0
    for path in tree.antt + tree.rt:
        new = Respelled(tree, table, fields, path).whole()
        if new != tree.texts[path]:
            write(path, new)
            written += 1
    return written


def respell_edits(tree, table):
    line = lambda m: m[1] + TOKEN.sub(lambda w: table.get(w[0], w[0]), m[2])
    written = 0
    for crate in tree.crates:
        folder = f"{tree.root}/crates/{crate}/must-fail"
        for name in sorted(os.listdir(folder)) if os.path.isdir(folder) else []:
            old = read(f"{folder}/{name}")
            new = re.sub(r"(?m)^(old: |new: )(.*)$", line, old)
            if new != old:
                write(f"{folder}/{name}", new)
                written += 1
    return written


def main():
    parser = argparse.ArgumentParser(description=__doc__, formatter_class=argparse.RawDescriptionHelpFormatter)
    parser.add_argument("root")
    parser.add_argument("--also", default="", help="names whose new spelling is given")
    parser.add_argument("--table", help="where to write the old names with their new ones")
    parser.add_argument("--write", action="store_true")
    given = parser.parse_args()
    tree = Tree(given.root)
    table, lemmas, shared = table_of(tree, given.also)
    print(f"{len(table)} names to respell; {len(lemmas)} of them are lemmas that get _lem")
    for new, olds in sorted(shared.items()):
        print(f"would be shared: {new} by {', '.join(olds)}")
    for path, new, olds in collisions(tree, table):
        print(f"would meet in {os.path.relpath(path, given.root)}: {', '.join(olds)} as {new}")
    if given.table:
        write(given.table, json.dumps(table, ensure_ascii=False, indent=0))
    if given.write:
        print(f"{respell(tree, table)} files and {respell_edits(tree, table)} edits written")


if __name__ == "__main__":
    main()
