"""The functions that a crate of the library exports, read from its source: what C sees of each, and what its module must hold for it.

exported.py   prints the crates of the library"""
import re
from pathlib import Path

ROOT = Path(__file__).resolve().parents[2]
# Each has objects of its own in the library, so that a firmware links those whose functions it calls.
CRATES = ("capi", "capi_state", "capi_itron")
WIDTHS = {"u8": 1, "u16": 2, "u32": 4, "u64": 8, "i32": 4}
FUNCTION = re.compile(r'pub\s+extern\s+"C"\s+fn\s+(\w+)\s*\((.*?)\)\s*(?:->\s*(\w+)\s*)?(?:requires|ensures|\{)', re.S)
SLICE = re.compile(r"&(mut )?\[(\w+)\]")
# A number that the function writes for its caller, by a pointer of its own.
PLACE = "&mut u32"
NUMBERS = {"u32": "i32", "u64": "i64", "i32": "i32"}
# A struct of two numbers of 32 bits comes back from the proved function as both at once.
PAIR = r"\{ i32, i32 \}"
# What may be lent as a slice.
ELEMENTS = ("u8", "u16", "u32", "u64")


class Unknown(Exception):
    """Something that the step to another processor was not written for."""


def fields(name):
    """A struct's fields as (name, type, offset), and its size. Numbers of a fixed width alone, so that the layout is the same everywhere."""
    pattern = re.compile(rf"#\[repr\(C\)\](?:\s*#\[[^\]]*\])*\s*pub struct {name} \{{(.*?)\}}", re.S)
    texts = [path.read_text() for path in sorted(ROOT.glob("crates/*/src/**/*.rt"))]
    found = [match[1] for match in map(pattern.search, texts) if match]
    if len(found) != 1:
        raise Unknown(f"{len(found)} definitions of #[repr(C)] pub struct {name} in crates/*/src, not one")
    placed, size, widest = [], 0, 1
    for field, kind in re.findall(r"pub (\w+): ([^,\s]+)", re.sub(r"//.*", "", found[0])):
        if kind not in WIDTHS:
            raise Unknown(f"field {field} of {name} has type {kind}, whose size could differ on another processor")
        width = WIDTHS[kind]
        size = -(-size // width) * width
        placed.append((field, kind, size))
        size, widest = size + width, max(widest, width)
    return placed, -(-size // widest) * widest


class Parameter:
    def __init__(self, name, kind):
        self.name, self.kind, self.slice = name, kind, SLICE.fullmatch(kind)
        if self.slice and self.slice[2] not in ELEMENTS or not self.slice and kind not in (*NUMBERS, "usize", PLACE):
            raise Unknown(f"parameter {name} has type {kind}, which the shim does not know")
        # How the proved function takes it: a slice as a pointer and 64 bits of length.
        self.inner = ["ptr", "i64"] if self.slice else ["ptr"] if kind == PLACE else [NUMBERS.get(kind, "i64")]
        # What its pointer is aligned to, as C aligns what it lends.
        self.align = WIDTHS[self.slice[2] if self.slice else "u32"] if self.inner[0] == "ptr" else None


class Lines:
    """The lines of an exported x86-64 function, as patterns, with the registers that it counts."""

    def __init__(self):
        self.lines, self.registers = [], 0

    def new(self):
        self.registers += 1
        return f"%r{self.registers - 1}"

    def add(self, *lines):
        self.lines += lines

    def slice(self, pointer, length):
        """Moves a null pointer to 4096, since a slice's is never null, puts pointer and length together and takes them apart again."""
        place, null, wide, step, moved, end, first, other, count = (self.new() for _ in range(9))
        self.add(rf"{place} = alloca \[16 x i8\], align 8", f"{null} = icmp eq ptr {pointer}, null", f"{wide} = zext i1 {null} to i64",
                 f"{step} = mul i64 {wide}, 4096", f"{moved} = getelementptr i8, ptr {pointer}, i64 {step}",
                 f"store ptr {moved}, ptr {place}, align 8", f"{end} = getelementptr i8, ptr {place}, i64 8",
                 f"store i64 {length}, ptr {end}, align 8", f"{first} = load ptr, ptr {place}, align 1",
                 f"{other} = getelementptr i8, ptr {place}, i64 8", f"{count} = load i64, ptr {other}, align 1")
        return [f"ptr {first}", f"i64 {count}"]

    def pair(self, call, place):
        """Two numbers that come back together, written to the place of the answer."""
        both, first, second, behind = (self.new() for _ in range(4))
        self.add(rf"{both} = call {PAIR} {call}", f"{first} = extractvalue {PAIR} {both}, 0", f"{second} = extractvalue {PAIR} {both}, 1",
                 f"store i32 {first}, ptr {place}, align 1", f"{behind} = getelementptr i8, ptr {place}, i64 4",
                 f"store i32 {second}, ptr {behind}, align 1")


class Function:
    """One exported function. It gives back a struct (`answer`), an integer (`number`, as LLVM writes its type, and `kind`) or nothing."""

    def __init__(self, crate, name, parameters, result):
        self.crate, self.name, self.parameters, self.number, self.answer = crate, name, parameters, NUMBERS.get(result), None
        self.kind = result if self.number else None
        if result and not self.number:
            self.answer = result
            self.fields, self.size = fields(result)
            if len(self.fields) < 2 or len(self.fields) == 2 and not self.is_pair():
                raise Unknown(f"{result} comes back in a way that the shim does not know")

    def is_pair(self):
        return bool(self.answer) and [WIDTHS[kind] for _, kind, _ in self.fields] == [4, 4]

    def taken(self):
        """What the proved function takes, as LLVM's types: first the place of a struct that does not come back as a pair."""
        return ["ptr"] * (bool(self.answer) and not self.is_pair()) + [word for each in self.parameters for word in each.inner]

    def inner_line(self):
        """The first line of the proved function in the module."""
        listed = ", ".join(f"{word} noundef %a{at}" for at, word in enumerate(self.taken()))
        return f'define internal {self.given()} {self.inner_name()}({listed}) #0 {{'

    def inner_name(self):
        """The proved function's name in the module that rattle makes."""
        return f'@"{self.crate}::{self.name}"'

    def raw_name(self):
        """Its name in the module for another processor, for the shim to call."""
        return f"{self.crate}_{self.name}"

    def given(self):
        """What the proved function gives back, as its definition writes it."""
        return f"noundef {self.number}" if self.number else "noundef { i32, i32 }" if self.is_pair() else "void"

    def wrapper(self):
        """A pattern for the exported x86-64 function. The shim does what this form does, and takes its place only if it matches."""
        body, given, taken, passed, place = Lines(), "void", [], [], None
        if self.answer and self.size <= 16:  # comes back in registers, from a place of the function's own
            given, place = r"(?P<given>i\d+|\{ i\d+, i\d+ \})", body.new()
            body.add(rf"{place} = alloca \[\d+ x i8\], align [1248]")
            passed += [f"ptr {place}"] * (not self.is_pair())
        elif self.answer:  # written through the caller's pointer
            given, taken, passed = "noundef ptr", ["ptr noundef %a0"], ["ptr %a0"]
        for each in self.parameters:
            arguments = [f"%a{len(taken) + more}" for more in range(len(each.inner))]
            taken += [f"{word} noundef {argument}" for word, argument in zip(each.inner, arguments)]
            passed += body.slice(*arguments) if each.slice else [f"{each.inner[0]} {arguments[0]}"]
        call = rf'{self.inner_name()}\({", ".join(passed)}\)'
        if self.number:
            given, number = f"noundef {self.number}", body.new()
            body.add(f"{number} = call {self.number} {call}", f"ret {self.number} {number}")
        else:
            body.pair(call, place) if self.is_pair() else body.add(f"call void {call}")
            if place:
                back = body.new()
                body.add(rf"{back} = load (?P=given), ptr {place}, align [1248]", rf"ret (?P=given) {back}")
            else:
                body.add("ret ptr %a0" if self.answer else "ret void")
        head = rf"define {given} @{self.name}\({', '.join(taken)}\) #0 \{{\nstart:\n"
        return re.compile(head + "".join(rf"  {line}\n" for line in body.lines) + r"\}\n")

    def bridge(self):
        """For a pair: a function of the module that writes it through a pointer, as C can call it on every processor."""
        words = self.taken()
        taken = "".join(f", {word} noundef %a{at + 1}" for at, word in enumerate(words))
        passed = ", ".join(f"{word} %a{at + 1}" for at, word in enumerate(words))
        return (f"\ndefine hidden void @{self.raw_name()}(ptr noundef %a0{taken}) #0 {{\nstart:\n"
                f"  %r0 = call {{ i32, i32 }} {self.inner_name()}({passed})\n  %r1 = extractvalue {{ i32, i32 }} %r0, 0\n"
                "  store i32 %r1, ptr %a0, align 4\n  %r2 = getelementptr i8, ptr %a0, i64 4\n"
                "  %r3 = extractvalue { i32, i32 } %r0, 1\n  store i32 %r3, ptr %r2, align 4\n  ret void\n}\n")


def functions(crate, source):
    """The exported functions of a source text of a crate, in its order."""
    found = []
    for name, listed, result in FUNCTION.findall(source):
        try:
            words = [part.split(":", 1) for part in listed.split(",") if part.strip()]
            found.append(Function(crate, name, [Parameter(word.strip(), kind.strip()) for word, kind in words], result))
        except Unknown as unknown:
            raise Unknown(f"{crate}'s {name}: {unknown}") from None
    if len(found) != source.count("#[unsafe(no_mangle)]"):
        raise Unknown(f"{crate} marks {source.count('#[unsafe(no_mangle)]')} functions #[unsafe(no_mangle)], and {len(found)} of them could be read")
    return found


def functions_of(crate):
    return functions(crate, (ROOT / f"crates/{crate}/src/lib.rt").read_text())


if __name__ == "__main__":
    print(*CRATES)
