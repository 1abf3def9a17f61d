"""Shows that retarget.py and shim.py refuse what they don't know, on edits of a proved crate's module, and that alignment.py says no more
than it can know: refusals.py CRATE MODULE.ll"""
import re
import sys

import exported
from alignment import aligned
from exported import Unknown, functions
from retarget import retargeted

LAYOUT = 'target datalayout = "e-m:e-p:32:32-i64:64-n32-S128"'
TRIPLE = 'target triple = "riscv32-unknown-unknown-elf"'


def first(pattern, new):
    """An edit of the first place where a pattern stands."""
    def edit(text):
        edited, times = re.subn(pattern, new, text, count=1)
        assert times == 1, f"the module has no {pattern}"
        return edited
    return edit


EDITS = {
    "a pointer turned into a number": first(r"(  ret void)", r"  %r900 = ptrtoint ptr %a0 to i64\n\1"),
    "a number turned into a pointer": first(r"(  ret void)", r"  %r900 = inttoptr i64 8 to ptr\n\1"),
    "a pointer read as a number": first(r"(  store ptr %\w+, ptr (%r\d+), align 8\n)", r"\1  %r900 = load i64, ptr \2, align 8, !noundef !2\n"),
    "half a pointer read as a number": first(r"(  store ptr %\w+, ptr (%r\d+), align 8\n)",
                                             r"\1  %r900 = getelementptr i8, ptr \2, i64 4\n  %r901 = load i32, ptr %r900, align 4\n"),
    "a pointer that is not aligned to 8": first(r"(load ptr, ptr %r\d+, align )8", r"\g<1>4"),
    "a length at another offset of a slice": first(r"(store ptr %r5, ptr %r1, align 8\n  %r6 = getelementptr i8, ptr %r1, i64 )8", r"\g<1>4"),
    "a slice of another size": first(r"(define \{ i64, i32 \} @mast_\w+\(.*\nstart:\n.*\n  %r1 = alloca \[)16", r"\g<1>12"),
    "a null pointer that is moved to another place": first(r"(define \{ i64, i32 \} @mast_(?:.*\n)+?  %r4 = mul i64 %r3, )4096", r"\g<1>8192"),
    "a length of 32 bits": first(r"(define \{ i64, i32 \} @mast_\w+\(ptr noundef %a0, )i64", r"\1i32"),
    "an answer that comes back in another way": first(r"define \{ i64, i32 \} @mast_", "define [3 x i32] @mast_"),
    "an exported function that the crate does not have": first(r"(?s)define (\{ i64, i32 \} @mast_\w+)(\(.*?\n\}\n)", r"define \1\2define \1_too\2"),
    "another attribute of functions": first(r'"target-cpu"="x86-64"', '"target-cpu"="x86-64" "target-features"="+avx"'),
    "another attribute of a parameter": first(r"ptr noundef %a0", "ptr noalias noundef %a0"),
    "a copy whose length is not fixed": first(r"(@llvm\.memmove.*, i64) \d+, i1", r"\1 %r0, i1"),
    "a volatile load": first(r"= load i32", "= load volatile i32"),
    "a number of 128 bits": first(r"alloca i64", "alloca i128"),
    "a number with a point": first(r"alloca i64", "alloca double"),
    "a call through a pointer": first(r"call void @\"[\w:]+\"\(", "call void %r0("),
    "assembly": first(r"(  ret void)", r'  call void asm "nop", ""()\n\1'),
    "an element that is not a byte": first(r"getelementptr i8", "getelementptr i32"),
    "an array that is not empty": first(r"(?=\ndefine)", '\n@static.7 = private unnamed_addr constant [2 x i8] zeroinitializer, align 4\n'),
    "an empty array that is read": first(r"(  ret void)", r"  %r900 = load i32, ptr @static.0, align 4\n\1"),
    "a pair with a pointer in it": first(r"= load \{ i(?:8|32), i32 \}", "= load { ptr, i32 }"),
    "a pair with a number of 64 bits": first(r"ret \{ i(?:8|32), i32 \}", "ret { i32, i64 }"),
    "a pair of 64 bits and 32": first(r"ret \{ i(?:8|32), i32 \}", "ret { i64, i32 }"),
    "a pair of pointers": first(r"ret \{ i(?:8|32), i32 \}", "ret { ptr, ptr }"),
    "a pair with a number of 128 bits": first(r"ret \{ i(?:8|32), i32 \}", "ret { i32, i128 }"),
    "three that come back together": first(r"ret \{ i(?:8|32), i32 \}", "ret { i32, i32, i32 }"),
    "a pair that is part of a pointer": first(r"(  store ptr %\w+, ptr (%r\d+), align 8\n)", r"\1  %r900 = load { i32, i32 }, ptr \2, align 4\n"),
    "a global": first(r"(?=\ndefine)", "\n@words = private constant [2 x i32] [i32 1, i32 2]\n"),
    "another data layout": first(r"-i64:64", "-i64:32"),
}


def lent(pointer, length, register):
    """What rattle makes of a slice in an exported function: nine registers."""
    r = [f"%r{register + more}" for more in range(9)]
    return (f"  {r[0]} = alloca [16 x i8], align 8\n  {r[1]} = icmp eq ptr {pointer}, null\n  {r[2]} = zext i1 {r[1]} to i64\n"
            f"  {r[3]} = mul i64 {r[2]}, 4096\n  {r[4]} = getelementptr i8, ptr {pointer}, i64 {r[3]}\n  store ptr {r[4]}, ptr {r[0]}, align 8\n"
            f"  {r[5]} = getelementptr i8, ptr {r[0]}, i64 8\n  store i64 {length}, ptr {r[5]}, align 8\n  {r[6]} = load ptr, ptr {r[0]}, align 1\n"
            f"  {r[7]} = getelementptr i8, ptr {r[0]}, i64 8\n  {r[8]} = load i64, ptr {r[7]}, align 1\n")


# What rattle makes of exported functions with other types than today's, seen with a crate of such functions.
WRAPPERS = {
    "fn f(a: u32) -> u32": "define noundef i32 @f(i32 noundef %a0) #0 {\nstart:\n  %r0 = call i32 @\"capi::f\"(i32 %a0)\n  ret i32 %r0\n}\n",
    "fn f(a: i32) -> i32": "define noundef i32 @f(i32 noundef %a0) #0 {\nstart:\n  %r0 = call i32 @\"capi::f\"(i32 %a0)\n  ret i32 %r0\n}\n",
    "fn f(a: usize, b: u64) -> u64":
        "define noundef i64 @f(i64 noundef %a0, i64 noundef %a1) #0 {\nstart:\n  %r0 = call i64 @\"capi::f\"(i64 %a0, i64 %a1)\n  ret i64 %r0\n}\n",
    "fn f(t: &mut [u8])":
        "define void @f(ptr noundef %a0, i64 noundef %a1) #0 {\nstart:\n" + lent("%a0", "%a1", 0) +
        "  call void @\"capi::f\"(ptr %r6, i64 %r8)\n  ret void\n}\n",
    "fn f(a: u32, t: &[u8]) -> Five":
        "define noundef ptr @f(ptr noundef %a0, i32 noundef %a1, ptr noundef %a2, i64 noundef %a3) #0 {\nstart:\n" + lent("%a2", "%a3", 0) +
        "  call void @\"capi::f\"(ptr %a0, i32 %a1, ptr %r6, i64 %r8)\n  ret ptr %a0\n}\n",
    "fn f(t: &[u8], a: u32, out: &mut u32) -> Three":
        "define { i64, i32 } @f(ptr noundef %a0, i64 noundef %a1, i32 noundef %a2, ptr noundef %a3) #0 {\nstart:\n  %r0 = alloca [16 x i8], align 4\n" +
        lent("%a0", "%a1", 1) + "  call void @\"capi::f\"(ptr %r0, ptr %r7, i64 %r9, i32 %a2, ptr %a3)\n"
        "  %r10 = load { i64, i32 }, ptr %r0, align 4\n  ret { i64, i32 } %r10\n}\n",
    "fn f(a: u32, t: &[u8]) -> Two":
        "define i64 @f(i32 noundef %a0, ptr noundef %a1, i64 noundef %a2) #0 {\nstart:\n  %r0 = alloca [8 x i8], align 4\n" + lent("%a1", "%a2", 1) +
        "  %r10 = call { i32, i32 } @\"capi::f\"(i32 %a0, ptr %r7, i64 %r9)\n  %r11 = extractvalue { i32, i32 } %r10, 0\n"
        "  %r12 = extractvalue { i32, i32 } %r10, 1\n  store i32 %r11, ptr %r0, align 1\n  %r13 = getelementptr i8, ptr %r0, i64 4\n"
        "  store i32 %r12, ptr %r13, align 1\n  %r14 = load i64, ptr %r0, align 4\n  ret i64 %r14\n}\n",
}
TYPES = ["a: bool", "a: &u32", "a: &mut u64", "a: &[usize]", "a: &mut [Task]", "a: [u8; 4]", "a: u8", "a: i8", "a: i64", "a: &mut i32", "a: &[i32]"]

# An exported function, whose number's place the shim aligns to 4, and one that it calls twice, with places of 4 and of 8 each time.
COPIES = """define internal void @"capi::f"(ptr noundef %a0) #0 {
start:
  %r0 = alloca [16 x i8], align 8
  %r1 = getelementptr i8, ptr %r0, i64 4
  %r2 = load ptr, ptr %r0, align 8, !noundef !2
  %r3 = getelementptr i8, ptr %r0, i64 %r9
  %r4 = getelementptr i8, ptr %r1, i64 2
  call void @"capi::g"(ptr %r1, ptr %r0)
  call void @"capi::g"(ptr %r0, ptr %a0)
  call void @llvm.memmove.p0.p0.i64(ptr %r0, ptr %r2, i64 4, i1 false)
  call void @llvm.memmove.p0.p0.i64(ptr %r3, ptr %a0, i64 4, i1 false)
  call void @llvm.memmove.p0.p0.i64(ptr %r4, ptr %r1, i64 2, i1 false)
  ret void
}

define internal void @"capi::g"(ptr noundef %a0, ptr noundef %a1) #0 {
start:
  %r0 = getelementptr i8, ptr %a1, i64 8
  call void @llvm.memmove.p0.p0.i64(ptr %a0, ptr %r0, i64 8, i1 false)
  ret void
}
"""
ALIGNED = [("8 %r0", "1 %r2"), ("1 %r3", "4 %a0"), ("2 %r4", "4 %r1"), ("4 %a0", "4 %r0")]


def refused(attempt):
    try:
        attempt()
    except Unknown:
        return True
    return False


def main():
    crate, module = sys.argv[1:]
    with open(module) as file:
        text = file.read()
    retargeted(crate, text, LAYOUT, TRIPLE)
    passed = [what for what, edit in EDITS.items() if not refused(lambda: retargeted(crate, edit(text), LAYOUT, TRIPLE))]
    if not refused(lambda: retargeted(crate, text, LAYOUT.replace("p:32:32", "p:64:64"), TRIPLE)):
        passed.append("a processor with pointers of 64 bits")
    if not refused(lambda: retargeted(crate, text, LAYOUT.replace("i64:64", "i64:32"), TRIPLE)):
        passed.append("a processor with numbers of 64 bits aligned to 4")
    source = '#[unsafe(no_mangle)]\npub extern "C" {} {{'
    passed += [kind for kind in TYPES if not refused(lambda: functions("capi", source.format(f"fn f({kind}) -> u32")))]
    words = lambda count: ([(f"f{at}", "u32", 4 * at) for at in range(count)], 4 * count)
    exported.fields = lambda name: words({"Two": 2, "Three": 3, "Five": 5}[name])
    unmatched = [head for head, form in WRAPPERS.items() if not functions("capi", source.format(head))[0].wrapper().fullmatch(form)]
    copies = re.findall(r"\(ptr align (\S+ \S+), ptr align (\S+ \S+),", aligned(COPIES, functions("capi", source.format("fn f(a: &mut u32)"))))
    for what in passed:
        print(f"not refused: {what}")
    if copies != ALIGNED:
        print(f"copies between places aligned as in {ALIGNED} are taken for {copies}")
    for head in unmatched:
        print(f"not known: what rattle makes of {head}")
    if passed or unmatched or copies != ALIGNED:
        sys.exit(1)
    print(f"{crate}: {len(EDITS) + 2 + len(TYPES)} unknown forms refused, {len(WRAPPERS)} kinds of functions known")


if __name__ == "__main__":
    main()
