"""Code, undefined symbols and stack of the libraries for other processors.

measure.py TARGET..                 prints the tables of docs/TARGETS.md
measure.py --check TARGET           fails if the library needs what the header does not name, or has no bound on its stack
measure.py --painted FOLDER TARGET  fails if replay.c or state.c, run in that folder, found more stack used than the bound
measure.py --bars TARGET BYTES STACK [CRATE]  fails if code and constants, or the most stack, of a crate reach these numbers; of capi if none is named

Each crate's objects are measured without the others', as a firmware links them that calls no function of another crate. mast.wasm has all.

The stack of a function is its frame, which the compiler reports (-fstack-usage), and that of the deepest chain of functions it
calls, taken from the assembly: any mention of another function counts as a call. A function that calls itself counts as often as
DEPTHS says, and one that does and is not there has no bound. What memcpy and memset take is not in it."""
import re
import struct
import sys
from pathlib import Path

from exported import CRATES, ROOT, functions_of

NEEDED = {"memcpy", "memmove", "memset"}
SUPPORT = ("support", "division")
# The frames of a function that calls itself, at the most: `priority` has a number of links left, which falls by one at each call to 0. It begins
# with N, at most 32, or with 0.
DEPTHS = {"lookup.working.priority": 32 + 1}
TOKEN = re.compile(r'"([^"]+)"|([A-Za-z_][\w.]*)')


def fail(text):
    sys.exit(f"measure.py: {text}")


class Elf:
    """The sections and symbols of a 32-bit object file, low byte first."""

    def __init__(self, data):
        if data[:6] != b"\x7fELF\x01\x01":
            fail("an object file that is not 32-bit ELF, low byte first")
        at, size, count = struct.unpack_from("<I10xHH", data, 32)
        rows = [struct.unpack_from("<10I", data, at + size * n) for n in range(count)]
        strings = [data[row[4]:row[4] + row[5]] for row in rows]
        text = lambda table, offset: strings[table][offset:strings[table].index(b"\0", offset)].decode()
        self.loaded = sum(row[5] for row in rows if row[2] & 2)
        self.writable = sum(row[5] for row in rows if row[2] & 3 == 3)
        self.undefined, self.defined = set(), set()
        for row in rows:
            if row[1] == 2:
                for place in range(row[4] + 16, row[4] + row[5], 16):
                    name, _, _, info, _, section = struct.unpack_from("<IIIBBH", data, place)
                    if info >> 4:
                        (self.defined if section else self.undefined).add(text(row[6], name))


def leb(data, at):
    value = shift = 0
    while True:
        byte = data[at]
        at, value, shift = at + 1, value | (byte & 127) << shift, shift + 7
        if byte < 128:
            return value, at


def wasm(data):
    """The bytes of a WebAssembly module's code, and how many imports it has."""
    at, code, imports = 8, 0, 0
    while at < len(data):
        size, start = leb(data, at + 1)
        if data[at] == 2:
            imports = leb(data, start)[0]
        if data[at] == 10:
            code = size
        at = start + size
    return code, imports


def folder(target):
    return ROOT / "build" / target


def parts(crate):
    """The objects that a firmware may link for a crate."""
    return f"{crate}_shim", crate, *SUPPORT


def linked(target, crate):
    """The objects that it does link: the crate's own, and of SUPPORT what these need."""
    shim, module, *support = [Elf((folder(target) / f"{part}.o").read_bytes()) for part in parts(crate)]
    return [shim, module] + [each for each in support if each.defined & (shim.undefined | module.undefined)]


def frames(target, crate):
    """Each function's own frame."""
    found = {}
    for part in parts(crate):
        for line in (folder(target) / f"{part}.su").read_text().splitlines():
            place, size, kind = line.split("\t")
            if kind != "static":
                fail(f"{target}: the frame of {place} has no fixed size")
            found[re.sub(r"^[^:]*:(?:\d+:)*", "", place)] = int(size)
    return found


def calls(target, crate, names):
    """The functions that each function mentions."""
    found = {name: set() for name in names}
    for part in parts(crate):
        inside = None
        for line in (folder(target) / f"{part}.s").read_text().splitlines():
            label = re.match(r'"?([^"\s]+?)"?:', line)
            if label:
                inside = label[1] if label[1] in names else inside
            elif inside and line[:1] == "\t" and line.lstrip()[:1] not in ".@#":
                found[inside] |= {a or b for a, b in TOKEN.findall(line)} & names
            elif line.startswith("\t.size") or line.startswith("\tend_function"):
                inside = None
    return found


def stacks(target, crate):
    """The most stack that each exported function of a crate takes, what it calls included."""
    own = frames(target, crate)
    graph = calls(target, crate, set(own))
    names = [function.name for function in functions_of(crate)]
    missing = set(names) - set(own)
    if missing:
        fail(f"{target}: no frame is known of {', '.join(sorted(missing))}")

    def deepest(name, above):
        if name in above:
            fail(f"{target}: {name} calls itself, so its stack has no bound")
        others = graph[name] - {name} if name in DEPTHS else graph[name]
        return DEPTHS.get(name, 1) * own[name] + max((deepest(each, above + (name,)) for each in others), default=0)

    return {name: deepest(name, ()) for name in names}


def measured(target, crate):
    """Code and constants in bytes, or None where another crate's are theirs too, the symbols that are needed, and the stacks."""
    if target.startswith("wasm"):
        code, imports = wasm((folder(target) / "mast.wasm").read_bytes())
        if imports:
            fail(f"{target}: mast.wasm has imports, and nobody gives it any")
        return code if crate == CRATES[0] else None, set(), stacks(target, crate)
    objects = linked(target, crate)
    if any(each.writable for each in objects):
        fail(f"{target}: the library has writable data of its own")
    needs = set.union(*(each.undefined for each in objects)) - set.union(*(each.defined for each in objects))
    if not needs <= NEEDED:
        fail(f"{target}: the objects of {crate} need {', '.join(sorted(needs - NEEDED))}, which the header does not name")
    return sum(each.loaded for each in objects), needs, stacks(target, crate)


def print_tables(crate, targets):
    found = {target: measured(target, crate) for target in targets}
    print(f"{crate}:\n\n| target | code and constants, bytes | needs | most stack, bytes |\n|---|---|---|---|")
    for target, (code, needs, stack) in found.items():
        shown = f"in {CRATES[0]}'s" if code is None else f"{code:,}"
        print(f"| {target} | {shown} | {', '.join(sorted(needs)) or 'nothing'} | {max(stack.values()):,} |")
    print(f"\n| stack, bytes | {' | '.join(targets)} |\n|---|{'---|' * len(targets)}")
    for function in functions_of(crate):
        print(f"| {function.name} | {' | '.join(str(found[target][2][function.name]) for target in targets)} |")
    print()


def check_painted(run, target):
    """Painted stacks are within the bounds, given what the program's own memcpy and memset take."""
    own = dict(line.split("\t")[:2] for line in (run / "program.su").read_text().splitlines())
    extra = sum(int(size) for place, size in own.items() if place.endswith((":memcpy", ":memmove", ":memset")))
    found = re.findall(r"^(mast_\w+) (\d+)$", (run / "out").read_text(), re.M)
    reported = {name for name, _ in found}
    known = [stacks(target, crate) for crate in CRATES]
    bounds = {name: bound for each in known if set(each) <= reported for name, bound in each.items()}
    if not bounds or set(bounds) != reported:
        fail(f"{target}: the report has not the stack of every function of a crate, or that of another function")
    for name, painted in found:
        if int(painted) > bounds[name] + extra:
            fail(f"{target}: {name} took {painted} bytes of stack, and its bound is {bounds[name]}, with {extra} for memcpy and memset")


def print_instructions(run):
    """The most instructions of a call, from a run on a board, where 100,000 loops of two instructions tell what a count of its clock is."""
    report = (run / "out").read_text()
    loops = int(re.search(r"^counts in loops (\d+)$", report, re.M)[1])
    if loops:
        found = re.findall(r"^(?!mast_)([a-z_]+) (\d+)$", report, re.M)
        print("  instructions at most: " + ", ".join(f"{name} {int(counts) * 200000 // loops:,}" for name, counts in found))


def check_bars(target, most_bytes, most_stack, crate="capi"):
    code, _, stack = measured(target, crate)
    if code >= int(most_bytes) or max(stack.values()) >= int(most_stack):
        fail(f"{target}, {crate}: {code} bytes of code and {max(stack.values())} of stack, and {most_bytes} and {most_stack} are the bars")


def main():
    match sys.argv[1:]:
        case ["--check", target]:
            for crate in CRATES:
                measured(target, crate)
        case ["--painted", run, target]:
            check_painted(Path(run), target)
            print_instructions(Path(run))
        case ["--bars", target, most_bytes, most_stack, *crate]:
            check_bars(target, most_bytes, most_stack, *crate)
        case targets:
            for crate in CRATES:
                print_tables(crate, targets)


if __name__ == "__main__":
    main()
