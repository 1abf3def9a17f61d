"""Every constant of a C header is the number that the definitions have.

check_header.py [HEADER]
HEADER is include/mastclover.h if none is named; by its name it is that one or mastclover_itron.h, of which the macros that it defines
itself are looked at. A macro MAST_.. that no definition has fails, and so does a number of crates/rules/specs/Numbers.antt, or for
mastclover_itron.h a code of crates/itron/specs/Codes.antt, without a macro, but for those in UNNAMED. So do ticks that the text tells of
and that are not the standard limit.
"""
import pathlib
import re
import subprocess
import sys
import tempfile

top = pathlib.Path(__file__).resolve().parent.parent
NUMBERS = top / "crates/rules/specs/Numbers.antt"
SPECS = {name: (top / f"crates/{name}/specs") for name in ("rules", "tables", "sections", "encoding", "state", "mapping", "itron")}
# No call takes a generation or the ticks of the standard limit: these have no macro. Timeouts are looked up in wait_of.
UNNAMED = {"max_generation", "standard_limit", "standard_timeout", "no_timeout"}


# ---- the definitions

def body(name, crate=None):
    """The right side of a definition of these crates, without comments."""
    pattern = rf"^{name}(?: [^=\n]*)? =((?:.*\n)(?:[ \t]+.*\n)*)"
    for folder in [SPECS[crate]] if crate else SPECS.values():
        for path in sorted(folder.glob("*.antt")):
            if found := re.search(pattern, path.read_text() + "\n", re.M):
                return re.sub(r"--.*", "", found[1])
    sys.exit(f"no definition of {name}")


def number(name):
    """A number by its definition, which may be a sum or product of numbers and of others so defined."""
    text = re.sub(r"[A-Za-z]\w*", lambda m: str(number(m[0])), body(name).strip())
    if not re.fullmatch(r"[\d+*() -]+", text):
        sys.exit(f"{name} is no number: {text}")
    return eval(text)


def tested(left):
    """What stands before the number, in a test of a definition that `left`, a pattern, is equal to it."""
    return rf"(?:eqb \(?{left}\)? |{left} == )"


def literals(name, before=""):
    """The literals of a definition, those alone that stand behind `before`."""
    found = [int(n) for n in re.findall(before + r"(?<![\w.])(\d+)\b", body(name))]
    return found or sys.exit(f"{name} has no number behind {before!r}")


# ---- the header

def macros(header):
    """Name to value of every MAST_ macro that the header itself defines, as the compiler sees it."""
    folder, name = header.parent, header.name
    said = subprocess.run(["gcc", "-dM", "-E", "-x", "c", header], stdout=subprocess.PIPE, text=True, check=True).stdout
    own = set(re.findall(r"^#define (MAST_\w+)", header.read_text(), re.M))
    names = [n for n in re.findall(r"^#define (MAST_\w+)(?=[\s])", said, re.M) if n in own]
    shown = "".join(f'    printf("{n} %lld\\n", (long long)({n}));\n' for n in names)
    source = f'#include <stdio.h>\n#include "{name}"\nint main(void)\n{{\n{shown}    return 0;\n}}\n'
    with tempfile.TemporaryDirectory() as made:
        run = ["gcc", "-x", "c", "-I", folder, "-o", f"{made}/show", "-"]
        subprocess.run(run, input=source, text=True, check=True)
        out = subprocess.run([f"{made}/show"], stdout=subprocess.PIPE, text=True, check=True).stdout
    return {n: int(v) for n, v in (line.split() for line in out.splitlines())}


def expected():
    """Name to number, by the definitions."""
    sized = {
        "MAST_TABLES_LENGTH": number("tables_length"),
        "MAST_STATE_MAXIMUM": number("longest_file"),
        "MAST_MAXIMUM_TASKS": number("max_tasks"),
        "MAST_MAXIMUM_SLOTS": number("max_slots"),
        "MAST_MINIMUM_PRIORITY": int(re.search(r"within (\d+) max_priority", body("start_refusal"))[1]),
        "MAST_MAXIMUM_PRIORITY": number("max_priority"),
        "MAST_MAXIMUM_COUNT": number(re.search(r"(\w+)\s*$", body("class_maximum"))[1]),
    }
    statuses = {f"MAST_{name.upper()}": number(name) for name in defined() if not name.startswith("max")}
    binary, simple, ordered = (set(literals(n)) for n in ("is_binary", "is_simple", "by_priority"))
    inheriting = set(literals("inherits"))
    plain = set(literals("allowed")) - binary - simple
    (default,) = plain - ordered
    attributes = {
        "MAST_DEFAULT_ATTRIBUTES": default,
        "MAST_FIFO": default,
        "MAST_COUNTING_SEMAPHORE": default,
        "MAST_PRIORITY": only(plain & ordered) - default,
        "MAST_BINARY_SEMAPHORE": only(binary - ordered) - default,
        "MAST_SIMPLE_BINARY_SEMAPHORE": only(simple - ordered) - default,
        # with the class of owners and the order of priorities, and no other number of that class and order has more
        "MAST_INHERIT_PRIORITY": only(binary & ordered & inheriting) - only((binary & ordered) - inheriting),
    }
    if not inheriting | binary | simple | ordered <= set(literals("allowed")):
        sys.exit("a class, an order or inheritance has attributes that create does not allow")
    # wait_of: bit 0 of the options polls, so no other bit is an option
    modulus, polls = literals("wait_of", r"options % ")[0], literals("wait_of", tested(r"options % \d+"))[0]
    options = {"MAST_NO_WAIT": polls, "MAST_WAIT": (polls + 1) % modulus, "MAST_DEFAULT_OPTIONS": (polls + 1) % modulus}
    standard, _ = standard_wait()
    timeouts = {"MAST_STANDARD_TIMEOUT": standard, "MAST_NO_TIMEOUT": number(re.search(tested("timeout") + r"(\w+)\) Forever", body("wait_of"))[1])}
    return {**sized, **statuses, **attributes, **options, **timeouts, **run()}


def standard_wait():
    """The timeout that stands for the standard limit, and that limit in ticks."""
    return [number(name) for name in re.search(tested("timeout") + r"(\w+)\) \(Ticks (\w+)\)", body("wait_of")).groups()]


def run():
    """The numbers of mast_run: kinds by the words of steps and calls, limits, and the room that is enough."""
    kind, chosen = tested("kind"), r"(\d+)\) \((\w+)"
    kinds = {word.upper(): int(n) for n, word in re.findall(kind + r"(\d+)\) \(Begins(\w+)", body("row_in", "encoding"))}
    kinds |= {word.upper(): int(n) for n, word in re.findall(kind + r"(\d+)\) \(Some \(Row(\w+)", body("step_in", "encoding"))}
    events = {word.upper(): int(n) for n, word in re.findall(kind + chosen, body("call_of", "encoding"))}
    events |= {"TURN": literals("event_at", tested("slice_index ns 0"))[0], "TICK": max(literals("size_of", tested("kind")))}
    sections, steps, cells = (literals("limits_fit", rf"\.{what}\) ")[0] for what in ("sections", "steps", "cells"))
    tasks, row = number("max_tasks"), only(set(literals("rows_of", r"length ns / ")))
    return {
        **{f"MAST_{name}": n for name, n in kinds.items()},
        **{f"MAST_EVENT_{name}": n for name, n in events.items()},
        "MAST_ROW": row,
        "MAST_MAXIMUM_SECTIONS": sections,
        "MAST_MAXIMUM_STEPS": steps,
        "MAST_MAXIMUM_CELLS": cells,
        "MAST_LOCALS": literals("limits_fit", r"\.locals\) ")[0],
        "MAST_PLACES": 2 * tasks,
        "MAST_GRANTS": 1 + 2 * tasks * sections,
    }


def signed(text):
    """The first number with a sign in a text of the definitions: `pos 0`, `minus 5`."""
    found = re.search(r"\b(pos|minus) (\d+)", text) or sys.exit(f"no number with a sign in: {text}")
    return int(found[2]) * (1 if found[1] == "pos" else -1)


def itron():
    """The numbers of mastclover_itron.h: a macro for each code that is defined."""
    codes = re.findall(r"^e_(\w+) = (.*)", (SPECS["itron"] / "Codes.antt").read_text(), re.M)
    first, attributes, others = literals("attributes_of")
    (other,) = set(literals("sematr_allowed", tested("sematr"))) - {first}
    # the one whose Classic attributes are in the order of priorities
    priority, fifo = (first, other) if attributes in literals("by_priority") else (other, first)
    if {attributes, others} != set(literals("allowed")) - set(literals("is_binary")) - set(literals("is_simple")):
        sys.exit("attributes_of gives others than those of counting semaphores")
    return {
        **{f"MAST_E_{name.upper()}": signed(text) for name, text in codes},
        "MAST_ITRON_ENTRIES": number("list_length"),
        "MAST_ITRON_MAXIMUM_COUNT": number("greatest_count"),
        "MAST_TA_TFIFO": fifo,
        "MAST_TA_TPRI": priority,
        "MAST_TMO_FEVR": signed(body("wai_sem")),
        "MAST_TMO_POL": signed(body("preq_sem")),
    }


def only(numbers):
    (number,) = numbers
    return number


def defined():
    names = re.findall(r"^(\w+) = \d+$", NUMBERS.read_text(), re.M)
    return [name for name in names if name not in UNNAMED]


def main():
    header = pathlib.Path(sys.argv[1] if len(sys.argv) > 1 else top / "include/mastclover.h").resolve()
    given, wanted = macros(header), itron() if header.name == "mastclover_itron.h" else expected()
    faults = [f"{name} is {value} and has no definition" for name, value in given.items() if name not in wanted]
    faults += [f"{name} is missing; it is {value}" for name, value in wanted.items() if name not in given]
    both = given.keys() & wanted.keys()
    faults += [f"{n} is {given[n]}, and by the definitions {wanted[n]}" for n in sorted(both) if given[n] != wanted[n]]
    told, limit = re.findall(r"\b(\d+)(?:\s|\*)+ticks\b(?! left)", header.read_text()), standard_wait()[1]
    faults += [f"{n} ticks are told of, and the standard limit is {limit}" for n in told if int(n) != limit]
    faults += ["the ticks of the standard limit are not told of"] if "MAST_STANDARD_TIMEOUT" in wanted and not told else []
    print("\n".join(faults) if faults else f"{len(given)} constants")
    sys.exit(1 if faults else 0)


main()
