"""Runs rt and shows each crate as it is proved, with its number of how many and its time.

prove.py LOG FOLDER rt check | rt run | rt all check       rt runs in FOLDER: a crate's, or the top for all
All that rt says goes to LOG, the progress to standard error; if something is not proved, LOG is shown. A program is run on no input,
and what it ends with is no part of the proof.
"""
import pathlib
import re
import subprocess
import sys
import time

from sources import ROOT, uses

CHECKED = re.compile(r"crate (\w+): modules loaded=\d+ checked=(\d+)")
HEADING = re.compile(r"== (\w+)$")
FAILED = re.compile(r"(?:rt: )?((?:fn \S+: (?:not proved|no proof)|rt: the library \w+ did not build|\w+: (?:failed|not run)\b).*)")
RUNS = "rt: running out/"


def in_order(name):
    """The crates that rt proves for a crate, it among them, as one after another is."""
    found = []
    for used in uses().get(name, ()):
        found += [it for it in in_order(used) if it not in found]
    return found + [name] if name in uses() else found


def tell(text):
    print(text, file=sys.stderr, flush=True)


def progress(lines, log, order):
    """Tells of each crate that was proved anew; whether all that had to be proved was, as far as it is seen here."""
    name, new, headings, idle, runs, last = None, 0, 0, True, False, time.time()
    for line in lines:
        log.write(line)
        if HEADING.match(line):
            headings += 1
        elif found := CHECKED.match(line):
            name, new = found[1], int(found[2])
        elif line.startswith("logic=proved") and name:
            place = headings or order.index(name) + 1 if name in order else headings
            if new:
                idle = False
                tell(f"[{place}/{len(order)}] {name} proved, {time.time() - last:.0f} s")
            name, last = None, time.time()
        elif found := FAILED.match(line):
            idle = False
            tell(found[1])
        runs = runs or line.startswith(RUNS)
    if idle:
        tell("Nothing has changed since they were proved.")
    return runs


def main():
    path, folder, *command = sys.argv[1:]
    order = list(uses()) if command[1] == "all" else in_order(pathlib.Path(folder).name)
    minutes = -(-len(order) // 3)
    tell(f"Proving {len(order)} crates: some {minutes} minutes the first time, on four cores; later only what has changed.")
    with open(path, "w+") as log:
        rt = subprocess.Popen(command, cwd=ROOT / folder, stdin=subprocess.DEVNULL, stdout=subprocess.PIPE, stderr=subprocess.STDOUT, text=True)
        runs = progress(rt.stdout, log, order)
        status = rt.wait()
        if status and not runs:
            log.seek(0)
            tell(log.read())
            sys.exit(status)


if __name__ == "__main__":
    main()
