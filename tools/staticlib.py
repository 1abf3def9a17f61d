"""Proves a crate of the library for C and compiles it into an archive: staticlib.py NAME OUT.a [TOOLCHAIN]

As `rt lib`, but for every x86-64, with another toolchain than the kit's if one is named, and over the libraries as rt ci left them, which
rt lib would prove again."""
import subprocess
import sys
from pathlib import Path

from sources import ROOT, below, is_noted, rt, uses

KIT = Path(rt("doc")).parent


def rlib(name):
    return ROOT / f"crates/{name}/out/rlib/{name}.rlib" if name in uses() else KIT / f"rlibs/{name}.rlib"


def words(name, out, toolchain):
    found = ["--crate-name", name, "src/lib.rt", "--crate-type", "staticlib", "--cpu", "x86-64", "--backend", "llvm"]
    for used in ("std", *uses()[name]):
        found += ["--extern", f"{used}={rlib(used)}"]
    for folder in [KIT / "rlibs"] + [rlib(used).parent for used in below(name)]:
        found += ["-L", f"dependency={folder}"]
    found += ["--antt-project", KIT / "rattle/logic/antt-project.json", "--logic-built", KIT / "logic_built"]
    return found + ["--incremental", "out/incremental", "--toolchain", toolchain, "-o", out]


def main():
    name, out, *toolchain = sys.argv[1:]
    folder, log = ROOT / "crates" / name, ROOT / f"build/lib_{name}.log"
    log.parent.mkdir(exist_ok=True)
    if not all(map(is_noted, below(name))):
        proved = subprocess.run([sys.executable, ROOT / "tools/prove.py", log, folder, "rt", "check"], cwd=ROOT)
        if proved.returncode:
            sys.exit(proved.returncode)
    (folder / "out").mkdir(exist_ok=True)
    command = [KIT / "bin/rattle", "build", *words(name, Path(out).resolve(), *toolchain or [KIT / "toolchain"])]
    with open(log, "w") as said:
        status = subprocess.run(command, cwd=folder, stdin=subprocess.DEVNULL, stdout=said, stderr=subprocess.STDOUT).returncode
    text = log.read_text()
    verdicts = [line for line in text.splitlines() if line.startswith("logic=proved")]
    if status or not verdicts or any("foreign=" in line for line in verdicts):
        sys.exit(f"{text}\n{name} is not proved, or not compiled")
    print(f"{name} compiled for C", file=sys.stderr)


if __name__ == "__main__":
    main()
