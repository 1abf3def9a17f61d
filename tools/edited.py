"""Must-fail edits, and what a check says of a crate with an edit.

edited.py CRATE/LABEL..      prints it, of these edits

As rt tries an edit: over the libraries as rt ci or rt check left them, and over what a check of the crate as it stands proved. Where the edit
writes a test otherwise, once more, with the answers under the names that the goals then have. It is kept in build/edits, and not asked for
again while nothing that it stands on has changed."""
import concurrent.futures
import hashlib
import os
import pathlib
import re
import shutil
import subprocess
import sys
import tempfile

from sources import PARTS, ROOT, below, is_noted, sum_of, uses
from staticlib import KIT, rlib

KEPT = ROOT / "build/edits"
# Goals and places are named by the tests that lead there, as the code has them: `returns-then-digits-gt0`, `c.if-digits-gt0`.
TEST = re.compile(r"(?<!\w)(?:then|else|if)-((?:(?!-clause-)[^\s`+.,;:()|])+)")
GONE = re.compile(r"has no (?:field )?`([^`]+)`")
OPEN = re.compile(r"it is not proved that .*?\(`([^`]+)`\)|\(nearest: ([^,)\s]+)")


class Edit:
    """One file of must-fail/: its name and words, and the replacements (file, old, new)."""

    def __init__(self, path):
        self.crate, self.label, self.text = path.parts[-3], path.stem, path.read_text()
        self.words, self.changes, file, old = "", [], None, None
        for line in self.text.splitlines():
            key, _, rest = line.partition(": ")
            if key == "file":
                file = rest.strip()
            elif key == "old":
                old = rest
            elif line.startswith("new:"):
                self.changes.append((file, old, line[len("new:"):].removeprefix(" ")))
            else:
                self.words += f" {line}"

    def name(self):
        return f"{self.crate}/{self.label}"

    def sum(self):
        """Of the edit and of all that its check reads."""
        return hashlib.sha256(f"{sum_of(self.crate)} {self.text}".encode()).hexdigest()


def words(name):
    """What rattle is told of a crate, as rt tells it."""
    source = "src/main.rt" if (ROOT / "crates" / name / "src/main.rt").exists() else "src/lib.rt"
    found = ["--crate-name", name, source]
    for used in ("std", *uses()[name]):
        found += ["--extern", f"{used}={rlib(used)}"]
    for folder in [KIT / "rlibs"] + [rlib(used).parent for used in below(name)]:
        found += ["-L", f"dependency={folder}"]
    if re.search(rf"^{name} staticlib\b", (ROOT / "crates.txt").read_text(), re.M):
        found += ["--crate-type", "staticlib"]
    return found + ["--antt-project", KIT / "rattle/logic/antt-project.json", "--logic-built", KIT / "logic_built", "--jobs", "1"]


def renames(said):
    """The tests that an edit writes otherwise: by what a check says is gone, as the proof files name it, and by what is open or nearest in its place."""
    tests = lambda found: list(dict.fromkeys(test for name in found for test in TEST.findall(name)))
    gone, new = tests(GONE.findall(said)), tests("".join(pair) for pair in OPEN.findall(said))
    found, alike = {}, lambda old, it: len(os.path.commonprefix([old, it]))
    for old in gone:
        left = [it for it in new if it not in gone and it not in found.values()]
        if left and old not in new:
            found[old] = max(left, key=lambda it: alike(old, it))
    return found


def rename(folder, tests):
    """Writes the new tests into the proof files of functions, so that an answer meets the goal that has another name by the edit."""
    for path in [*folder.glob("proofs/**/Answers.antt"), *folder.glob("proofs/**/Invariants.antt")]:
        text = path.read_text()
        for old, new in tests.items():
            text = re.sub(rf"(?<!\w)((?:[Tt]hen|[Ee]lse|if)-){re.escape(old)}(?!\w|-(?!clause-))", lambda it: it[1] + new, text)
        path.write_text(text)


def checked(name, changes, over, tests={}):
    """A check of a copy of a crate with changes, begun with what stands in the folder `over` and kept there, or from nothing."""
    with tempfile.TemporaryDirectory(prefix="edit-") as made:
        for part in PARTS:
            if (ROOT / "crates" / name / part).is_dir():
                shutil.copytree(ROOT / "crates" / name / part, f"{made}/{part}")
        for file, old, new in changes:
            path = pathlib.Path(made) / file
            path.write_text(path.read_text().replace(old, new))
        rename(pathlib.Path(made), tests)
        command = [KIT / "bin/rattle", "check", *words(name), *(["--incremental", over] if over else [])]
        return subprocess.run(command, cwd=made, stdin=subprocess.DEVNULL, stdout=subprocess.PIPE, stderr=subprocess.STDOUT, text=True, errors="replace")


def linked(folder, to):
    """Copies what a check kept, of which a later one replaces the proofs and changes none."""
    shutil.copytree(folder, to, copy_function=lambda one, other: (os.link if one.endswith(".oantt") else shutil.copy2)(one, other))


def seed(name, edits, room):
    """A folder with what a check of the crate as it stands proves; none where it serves one edit alone, which is then checked from nothing."""
    folder = ROOT / "crates" / name
    if not all(map(is_noted, below(name))):
        subprocess.run(["rt", "check"], cwd=folder, stdin=subprocess.DEVNULL, stdout=subprocess.DEVNULL, stderr=subprocess.DEVNULL)
    begun, over = folder / "out/incremental", room / name
    if not begun.is_dir() and edits < 2:
        return None
    if begun.is_dir():
        linked(begun, over)
    else:
        over.mkdir()
    return over if checked(name, [], over).returncode == 0 else None


def text(edit, seeds):
    """All that a check says of an edit, as it is kept or from a copy."""
    log, stamp = KEPT / edit.crate / f"{edit.label}.log", KEPT / edit.crate / f"{edit.label}.sum"
    log.parent.mkdir(parents=True, exist_ok=True)
    stamp.unlink(missing_ok=True)
    over = seeds[edit.crate] and seeds[edit.crate].with_name(f"{edit.crate}.{edit.label}")
    if over:
        linked(seeds[edit.crate], over)
    said = checked(edit.crate, edit.changes, over).stdout
    if tests := renames(said):
        said = checked(edit.crate, edit.changes, over, tests).stdout
    log.write_text(said)
    shutil.rmtree(over or "", ignore_errors=True)
    stamp.write_text(edit.sum())


def is_kept(edit):
    stamp = KEPT / edit.crate / f"{edit.label}.sum"
    return stamp.is_file() and stamp.read_text() == edit.sum()


def texts(edits):
    """(edit, what a check says of it) for each edit; as many checks side by side as there are processors."""
    new = [edit for edit in edits if not is_kept(edit)]
    crates = {name: sum(edit.crate == name for edit in new) for name in sorted({edit.crate for edit in new})}
    with tempfile.TemporaryDirectory(prefix="edits-") as made, concurrent.futures.ThreadPoolExecutor(len(os.sched_getaffinity(0))) as pool:
        seeds = dict(zip(crates, pool.map(lambda name: seed(name, crates[name], pathlib.Path(made)), crates)))
        list(pool.map(lambda edit: text(edit, seeds), new))
    return [(edit, (KEPT / edit.crate / f"{edit.label}.log").read_text()) for edit in edits]


if __name__ == "__main__":
    for _, said in texts([Edit(ROOT / "crates/{}/must-fail/{}.edit".format(*name.split("/"))) for name in sys.argv[1:]]):
        print(said, end="")
