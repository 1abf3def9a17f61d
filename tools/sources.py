"""The crates of crates.txt and sums over their sources, by which it is known whether something made of them is still right.

sources.py [NAME..]        prints a sum over the sources of these crates, or of all, and of all below them, and over rt's version
sources.py --note [SUM]    to be called when rt ci has passed: notes in build/proved what it proved and made, which is then taken as it is;
                           nothing if SUM, printed before rt ci began, is no longer the sum over all"""
import functools
import hashlib
import subprocess
import sys
from pathlib import Path

ROOT = Path(__file__).resolve().parent.parent
NOTED = ROOT / "build/proved"
PARTS = ("src", "specs", "proofs")


@functools.cache
def uses():
    """The libraries that each crate names."""
    found = {}
    for line in (ROOT / "crates.txt").read_text().splitlines():
        head, colon, used = line.split("#")[0].partition(":")
        if colon:
            found[head.split()[0]] = used.split()
    return found


def below(name):
    """The crates of the repository that a crate rests on, without itself."""
    found, todo = set(), [name]
    while todo:
        new = {it for it in uses()[todo.pop()] if it in uses()} - found
        found |= new
        todo += new
    return sorted(found)


@functools.cache
def rt(word):
    """What rt says of itself: its version, or the path of its first page."""
    return subprocess.run(["rt", word], cwd=ROOT, check=True, capture_output=True, text=True).stdout.strip()


@functools.cache
def own_sum(name):
    total = hashlib.sha256(repr(uses()[name]).encode())
    for path in sorted(path for part in PARTS for path in (ROOT / "crates" / name / part).rglob("*") if path.is_file()):
        total.update(f"{path.relative_to(ROOT)} {hashlib.sha256(path.read_bytes()).hexdigest()}\n".encode())
    return total.hexdigest()


def sum_of(*names):
    every = sorted({it for name in names for it in (name, *below(name))})
    return hashlib.sha256(repr([rt("version"), *map(own_sum, every)]).encode()).hexdigest()


def noted(name):
    """The line of a crate in whose out/ stands a library or a program by rt ci: the sums of its sources and of that. rt check and rt lib leave a
    stamp beside a library, and know by themselves whether it is right."""
    out = ROOT / "crates" / name / "out"
    made = [path for path in (out / f"rlib/{name}.rlib/format", out / name) if path.is_file()]
    if not made or (out / "rlib/stamp").exists():
        return None
    return f"{name} {sum_of(name)} {hashlib.sha256(b''.join(path.read_bytes() for path in made)).hexdigest()}"


def note():
    NOTED.parent.mkdir(exist_ok=True)
    NOTED.write_text("".join(f"{line}\n" for line in map(noted, sorted(uses())) if line))


def is_noted(name):
    """Whether what stands in a crate's out/ is what rt ci made there of just these sources."""
    return NOTED.exists() and noted(name) in NOTED.read_text().splitlines()


if __name__ == "__main__":
    flag, *rest = sys.argv[1:] or [""]
    if flag != "--note":
        print(sum_of(*(sys.argv[1:] or uses())))
    elif rest in ([], [sum_of(*uses())]):
        note()
