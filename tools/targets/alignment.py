"""Says of each copy in a module how its places are aligned, so that a processor without unaligned words copies words and not bytes.

Nothing is assumed: a place on the stack has the alignment that it is made with, a place at a fixed distance from another what that leaves
of it, and a parameter the least that any caller passes. What an exported function is passed the shim makes, with the alignment of its C
type. Of a pointer out of memory nothing is known."""
import math
import re

from exported import WIDTHS

R = r"%[ra]\d+"
DEFINED = re.compile(r'define internal .*@"([^"]+)"\((.*)\) #0 \{')
ALLOCA = re.compile(rf"  ({R}) = alloca .*, align (\d+)")
OFFSET = re.compile(rf"  ({R}) = getelementptr (?:inbounds nuw )?i8, ptr ({R}), i64 (\d+)")
CALL = re.compile(r'  (?:%r\d+ = call (?:\w+|\{ \w+, \w+ \})|call void) @"([^"]+)"\((.*)\)')
COPY = re.compile(rf"(  call void @llvm\.memmove\.p0\.p0\.i64\()ptr ({R}), ptr ({R}), (.*)")
MOST = 8


def functions_in(text):
    """The functions of a module by name: the number of each line of the body, and the parameters that are pointers."""
    functions, name = {}, None
    for at, line in enumerate(text.split("\n")):
        if found := DEFINED.fullmatch(line):
            name = found[1]
            functions[name] = [], [word.split()[-1] for word in found[2].split(", ") if word.startswith("ptr ")]
        elif line == "}":
            name = None
        elif name:
            functions[name][0].append((at, line))
    return functions


def from_the_shim(function):
    """The alignments that an exported function's pointers have: its answer's, a slice's and a number's place."""
    every = [max(WIDTHS[kind] for _, kind, _ in function.fields)] if function.answer and not function.is_pair() else []
    for each in function.parameters:
        every += [each.align] + [None] * (len(each.inner) - 1)
    return {f"%a{at}": align for at, align in enumerate(every) if align}


def places(lines, parameters):
    """The alignment of each place that is known in a function."""
    known = dict(parameters)
    for _, line in lines:
        if found := ALLOCA.fullmatch(line):
            known[found[1]] = min(MOST, int(found[2]))
        elif found := OFFSET.fullmatch(line):
            known[found[1]] = math.gcd(known.get(found[2], 1), int(found[3]))
    return known


def least_passed(functions, exported):
    """The least alignment that any caller passes for each parameter: taken down from the most, caller by caller, until nothing changes."""
    least = {name: dict.fromkeys(pointers, MOST) for name, (_, pointers) in functions.items()}
    for each in exported:
        least[f"{each.crate}::{each.name}"] = from_the_shim(each)
    changed = True
    while changed:
        changed = False
        for name, (lines, _) in functions.items():
            known = places(lines, least[name])
            for called, listed in (found.groups() for _, line in lines if (found := CALL.fullmatch(line))):
                for at, word in enumerate(listed.split(", ")):
                    passed = known.get(word[4:], 1) if word.startswith("ptr ") else MOST
                    if passed < least[called].get(f"%a{at}", 1):
                        least[called][f"%a{at}"], changed = passed, True
    return least


def aligned(text, exported):
    """The module with the alignments of each copy."""
    functions, lines = functions_in(text), text.split("\n")
    least = least_passed(functions, exported)
    for name, (body, _) in functions.items():
        known = places(body, least[name])
        for at, line in body:
            if found := COPY.fullmatch(line):
                to, source = (f"ptr align {known.get(place, 1)} {place}" for place in found.groups()[1:3])
                lines[at] = f"{found[1]}{to}, {source}, {found[4]}"
    return "\n".join(lines)
