"""Replays one file of session lines by the proved program and by a plain Rust program: best of five, and the ratio."""
import pathlib
import subprocess
import sys
import time

LINES = int(sys.argv[1]) if len(sys.argv) > 1 else 1_000_000
top = pathlib.Path(__file__).resolve().parent.parent
rust = top / "compare/target/release"
replay = top / "build/replay.session"
programs = {"mast-session": top / "build/mast-session", "plain Rust": rust / "plain_session"}


def seconds(program):
    began = time.perf_counter()
    subprocess.run([program, replay], stdout=subprocess.DEVNULL, check=True)
    return time.perf_counter() - began


with open(replay, "wb") as out:
    subprocess.run([rust / "make_session", "ticks", str(LINES)], stdout=out, check=True)
answers = [subprocess.run([p, replay], stdout=subprocess.PIPE, check=True).stdout for p in programs.values()]
if answers[0] != answers[1]:
    sys.exit("the two programs answer differently")
best = {name: min(seconds(p) for _ in range(5)) for name, p in programs.items()}
print(f"a replay of {LINES} lines with 32 tasks, mostly ticks, best of five")
for name, taken in best.items():
    print(f"  {name:14s}{taken:8.3f} s")
print(f"  ratio         {best['mast-session'] / best['plain Rust']:8.2f}")
test = float(subprocess.run([top / "build/bench_agreement"], stdout=subprocess.PIPE, check=True).stdout)
share = test * LINES / 1e9 / best["mast-session"]
print(f"  the test for 25 takes {test:.0f} ns on such tables (an ident of name 0): {share:.0%} of the proved program's time")
replay.unlink()
