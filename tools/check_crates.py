"""Each folder of crates/ is listed in crates.txt, as `NAME: DEP ..` or `NAME staticlib: DEP ..`, even one that holds no file yet."""
import pathlib
import sys

top = pathlib.Path(__file__).resolve().parent.parent
lines = (line.split("#")[0].strip() for line in (top / "crates.txt").read_text().splitlines())
listed = {line.split(":")[0].split()[0] for line in lines if line}
unlisted = sorted(p.name for p in (top / "crates").iterdir() if p.name not in listed)
for name in unlisted:
    print(f"crates/{name} is not listed in crates.txt")
sys.exit(1 if unlisted else 0)
