"""Turns the module of a proved crate, made for x86-64, into one for another processor: retarget.py CRATE MODULE.ll EMPTY.ll OUT.ll

EMPTY.ll is an empty program that clang made for the other processor; its triple and data layout are taken over. Every line of the
module must have a form listed here. These forms mean the same on every processor, sizes and offsets in bytes included; anything
else stops the build, since nobody has thought about it yet."""
import re
import sys

from alignment import aligned
from exported import Unknown, functions_of

R = r"%[ra]\d+"
INT = r"i(?:1|8|16|32|64)"
VALUE = rf"(?:{R}|-?\d+|true|false)"
LABEL = r"label %[a-z]+(?:\.\d+)?"
NAME = r'@"[A-Za-z_][^"\\]*"'
ARGUMENT = rf"(?:ptr {R}|{INT} {VALUE})"
ALIGN = r"align [1248]"
# Two that come back together: numbers, a pointer and a length, or a number and a pointer. In memory the second stands at the next multiple
# of its own width, a pointer's being 8 as on x86-64, and a number of 64 bits is aligned to 8 on the processors that are known here. What is
# read at once with a pointer in second place is read part by part instead (`apart`), since there a pointer of 32 bits would be looked for at 4.
PAIR = r"\{ (?:ptr, i64|i8, (?:ptr|i(?:8|32|64))|i32, i32|i64, i64) \}"
# The place of an empty array, of which no byte is ever read.
EMPTY = r"@static\.\d+"

# The lines of a function. No number becomes a pointer and no pointer a number, and copies and fills have a fixed length.
BODY = (
    r"", r"start:", r"[a-z]+\.\d+: +; (?:preds = .*|No predecessors!)",
    rf"  {R} = alloca (?:{INT}|ptr|\[\d+ x i8\]), {ALIGN}",
    rf"  {R} = load {INT}, ptr {R}, {ALIGN}(?:, !range !\d+)?(?:, !noundef !\d+)?",
    rf"  {R} = load ptr, ptr {R}, align 8, !noundef !\d+",
    rf"  store {INT} {VALUE}, ptr {R}, {ALIGN}",
    rf"  store ptr (?:{R}|{EMPTY}), ptr {R}, align 8",
    rf"  {R} = load {PAIR}, ptr {R}, {ALIGN}", rf"  {R} = extractvalue {PAIR} {R}, [01]", rf"  ret {PAIR} {R}",
    rf"  {R} = getelementptr (?:inbounds nuw )?i8, ptr {R}, i64 (?:{R}|\d+)",
    rf"  {R} = (?:add|sub|mul)(?: nuw)? {INT} {VALUE}, {VALUE}",
    rf"  {R} = (?:udiv|urem|and|or|xor|shl|lshr) {INT} {VALUE}, {VALUE}",
    rf"  {R} = icmp (?:eq|ne|[us](?:lt|le|gt|ge)) {INT} {VALUE}, {VALUE}",
    rf"  {R} = (?:zext|trunc(?: nuw)?) {INT} {VALUE} to {INT}",
    rf"  (?:{R} = call (?:{INT}|{PAIR})|call void) {NAME}\((?:{ARGUMENT}(?:, {ARGUMENT})*)?\)",
    rf"  call void @llvm\.memmove\.p0\.p0\.i64\(ptr {R}, ptr {R}, i64 \d+, i1 false\)",
    rf"  call void @llvm\.memset\.p0\.i64\(ptr {R}, i8 {VALUE}, i64 \d+, i1 false\)",
    rf"  br {LABEL}", rf"  br i1 {VALUE}, {LABEL}, {LABEL}",
    rf"  switch {INT} {R}, {LABEL} \[", rf"    {INT} -?\d+, {LABEL}", r"  \]",
    rf"  ret (?:void|{INT} {VALUE})", r"  unreachable",
)
# The lines outside of functions.
X86 = 'attributes #0 = { nounwind "probe-stack"="inline-asm" "stack-probe-size"="3072" "target-cpu"="x86-64" }'
OUTER = (
    r"", r"; ModuleID = .*", r"; Function Attrs: .*", r'source_filename = "rattle"', re.escape(X86),
    r'target datalayout = "e-m:e-p270:32:32-p271:32:32-p272:64:64-i64:64-i128:128-f80:128-n8:16:32:64-S128"',
    r'target triple = "x86_64-unknown-linux-gnu"',
    r"declare void @llvm\.memmove\.p0\.p0\.i64\(ptr writeonly captures\(none\), ptr readonly captures\(none\), i64, i1 immarg\) #[12]",
    r"declare void @llvm\.memset\.p0\.i64\(ptr writeonly captures\(none\), i8, i64, i1 immarg\) #[12]",
    r"attributes #[12] = \{ nocallback nofree nounwind willreturn memory\(argmem: (?:readwrite|write)\) \}",
    rf"{EMPTY} = private unnamed_addr constant \[0 x i8\] zeroinitializer, {ALIGN}",
    r"!llvm\.ident = !\{!0\}", r'!\d+ = !\{!"rattle logic=[0-9a-f]+"\}', r"!\d+ = !\{(?:i8 0, i8 2)?\}",
)
PARAMETER = rf"(?:ptr noundef|{INT}(?: noundef)?(?: zeroext)?) %a\d+"
DEFINITION = rf"define internal (?:noundef (?:zeroext )?{INT}|(?:noundef )?{PAIR}|void) {NAME}\((?:{PARAMETER}(?:, {PARAMETER})*)?\) #0 \{{"
BODY, OUTER, DEFINITION = (re.compile("|".join(forms)) for forms in (BODY, OUTER, [DEFINITION]))

# How functions are made, where not for size with what they call taken in. Each call, and an obtain's and a tick's step, keeps a frame of its own:
# taken into the one function that serves them all, they would add up. The look at words that have to be 0, which reads nearly all of the tables,
# is made once and for speed. The rest is made for size alone, but for the crates in which most of a call's instructions lie, for the calls, whose
# frames would grow, and for mast_load, which would ask for a division on armv7a.
MADE = (
    (r"calls\.(\w+)\.\2|calls\.tick\.elapse|semaphore\.Semaphore\.take", "noinline #0"),
    (r"words\.is_blank", "noinline nounwind"),
    (r"(?!(?:agreement|words|tables|state|lookup|calls)\.|capi_state[._]mast_load)[\w.]+", "minsize #0"),
)

OFFSET = re.compile(rf"  ({R}) = getelementptr .*ptr ({R}), i64 (\d+)")
ACCESS = re.compile(rf"  (?:{R} = load|store) ({INT}|ptr|{PAIR})(?: (?:{VALUE}|{EMPTY}))?, ptr ({R}),")


def parts_of(kind):
    """The parts of what is read or written at once: each one's place, its length, and whether it is a pointer."""
    parts, at = [], 0
    for part in kind.strip("{ }").split(", "):
        size = 8 if part == "ptr" else -(-int(part[1:]) // 8)
        at = -(-at // size) * size
        parts.append((at, size, part == "ptr"))
        at += size
    return parts


def check_pointers(function, lines):
    """No byte of a place that holds a pointer is read or written as part of a number: of its 8 bytes a 32-bit pointer fills 4."""
    places, held = {}, set()
    for line in lines:
        if found := OFFSET.fullmatch(line):
            base, offset = places.get(found[2], (found[2], 0))
            places[found[1]] = base, offset + int(found[3])
        elif found := ACCESS.match(line):
            base, offset = places.get(found[2], (found[2], 0))
            held |= {(base, offset + at + n, pointer) for at, size, pointer in parts_of(found[1]) for n in range(size)}
    for base, at, _ in sorted(held):
        if {(base, at, True), (base, at, False)} <= held:
            raise Unknown(f"byte {at} of {base} belongs to a pointer and to a number, in {function}")


def check(text):
    """Every line has a known form."""
    function, lines = None, []
    for line in text.split("\n"):
        if not function and DEFINITION.fullmatch(line):
            function, lines = line, []
        elif function and line == "}":
            check_pointers(function, lines)
            function = None
        elif (BODY if function else OUTER).fullmatch(line):
            lines.append(line)
        else:
            raise Unknown(f"a form that this step does not know{', in ' + function if function else ''}: {line.strip()}")


def without_wrappers(text, functions):
    """Drops the exported x86-64 functions, each of the form that the shim stands for."""
    for function in functions:
        text, times = function.wrapper().subn("", text)
        if times != 1:
            raise Unknown(f"the exported {function.name} has another form than the one that the shim stands for")
        if function.inner_line() not in text:
            raise Unknown(f"the shim calls what is not in the module: {function.inner_line()}")
    return text


def plainly_named(text):
    """The module with names that every assembler reads, which stay different."""
    names = {name: re.sub(r"[^\w.]+", "_", name[2:-1].replace("::", ".")) for name in set(re.findall(NAME, text))}
    if len(set(names.values())) < len(names):
        raise Unknown("two functions would have one name")
    return re.sub(NAME, lambda name: "@" + names[name[0]], text)


def apart(found):
    """A number and a pointer behind it, read one after the other."""
    name, kind, place = found[1], found[2], found[3]
    return (f"  {name}.n = load {kind}, ptr {place}, align 8\n  {name}.at = getelementptr i8, ptr {place}, i64 8\n"
            f"  {name}.p = load ptr, ptr {name}.at, align 8\n  {name}.w = insertvalue {{ {kind}, ptr }} poison, {kind} {name}.n, 0\n"
            f"  {name} = insertvalue {{ {kind}, ptr }} {name}.w, ptr {name}.p, 1")


def retargeted(crate, text, layout, triple):
    """The module for the processor with this layout and triple, the proved functions below the exported ones named CRATE_NAME."""
    functions = functions_of(crate)
    text = without_wrappers(text, functions)
    check(text)
    text = aligned(text, functions)
    text = re.sub(rf"^  ({R}) = load \{{ ({INT}), ptr \}}, ptr ({R}), align 8$", apart, text, flags=re.M)
    if not re.search(r'"e-.*\bp:32:32-(?:.*-)?i64:64-', layout):
        raise Unknown(f"only processors with 32-bit pointers, low byte first, and numbers of 64 bits aligned to 8 are known, not {layout}")
    for old, new in ((r"target datalayout = .*", layout), (r"target triple = .*", triple)):
        text = re.sub(old, new, text)
    text = text.replace(X86, "attributes #0 = { nounwind optsize }")
    for function in functions:
        if function.is_pair():
            text = text.replace("\ndeclare ", f"{function.bridge()}\ndeclare ", 1)
        else:
            text = text.replace(f"define internal {function.given()} {function.inner_name()}", f"define hidden {function.given()} @{function.raw_name()}")
    text = plainly_named(text)
    for names, attributes in MADE:
        text = re.sub(rf"^(define .*@(?:{names})\(.*\)) (?P<kept>(?:noinline )?)#0 \{{$", rf"\1 \g<kept>{attributes} {{", text, flags=re.M)
    # A length of 64 bits would be handed to memmove and memset as it is, whose lengths have 32.
    text = re.sub(r"@(llvm\.mem[\w.]+)\.i64\((.*), i64( \d+)?, i1", r"@\1.i32(\2, i32\3, i1", text)
    return text


def main():
    crate, module, empty, out = sys.argv[1:]
    with open(module) as text, open(empty) as other:
        text, other = text.read(), other.read()
    layout, triple = (re.search(rf'^target {word} = ".*"$', other, re.M)[0] for word in ("datalayout", "triple"))
    try:
        text = retargeted(crate, text, layout, triple)
    except Unknown as unknown:
        sys.exit(f"retarget.py: {module}: {unknown}")
    with open(out, "w") as file:
        file.write(text)


if __name__ == "__main__":
    main()
