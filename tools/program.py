"""Proves a program's crate and all below it, and copies the program: program.py NAME FILE

What is proved and made of just these sources is not made again: FILE by the sum beside it, and what rt ci left by what was noted of it."""
import hashlib
import os
import shutil
import subprocess
import sys

from sources import ROOT, is_noted, sum_of


def summed(name, path):
    return f"{sum_of(name)} {hashlib.sha256(path.read_bytes()).hexdigest()}\n"


def main():
    name, to = sys.argv[1], ROOT / sys.argv[2]
    stamp = to.with_name(f"{to.name}.sum")
    if to.is_file() and stamp.is_file() and stamp.read_text() == summed(name, to):
        return
    to.parent.mkdir(exist_ok=True)
    if not is_noted(name):
        proved = subprocess.run([sys.executable, ROOT / "tools/prove.py", to.with_name(f"{to.name}.log"), f"crates/{name}", "rt", "run"])
        if proved.returncode:
            sys.exit(proved.returncode)
    shutil.copy(ROOT / "crates" / name / "out" / name, to.with_name(f"{to.name}.new"))
    os.replace(to.with_name(f"{to.name}.new"), to)
    stamp.write_text(summed(name, to))


if __name__ == "__main__":
    main()
