"""Follows the lent bytes from ident's functions down, and fails unless they lead to the words of slots by one way, with each step at one place and
the two functions at its end as they were read: so that what the last one counts is every look at a slot, none of them twice. A view of the
bytes counts as the bytes, and its methods as the functions of tables that they hand them to. The test for 25 is not followed. The next task, which an answer names behind the search, is followed by itself: it has no part in the search, and reads of slots
one for each task, that which it waits on or, where it waits on none, the last. What this can't see, a reader sees in the functions that it names.

check_reads.py           says the way
check_reads.py --wrong   tries programs that look again, each of which must be refused"""
import re
import sys
from pathlib import Path

CRATES = Path(__file__).resolve().parents[1] / "crates"
# The C functions, and the step of `perform`, which the session and the runner call.
ROOTS = ("capi::mast_ident", "capi::mast_ident_looked", "calls::ident::find")
TEST, TESTED = "agreement::is_agreeing", "manager::ident_looked"
NEXT, ANSWERED = "lookup::next_task", "calls::answer"
SEARCH, LOOK, SLOT, WORD = "lookup::looks::search", "lookup::looks::next_look", "tables::slot_word", "words::word"
FIELDS = ["tables::slot_generation", "tables::slot_live", "tables::slot_name"]
# Who reads slots for the next task, and by whom: the head of the one that a task waits on, at one place, and whether its identifier names it.
LENT = {
    "lookup::working::lends_to": ["lookup::working::load_lenders"], "lookup::slot_named": ["lookup::working::lends_to"],
    "tables::load_head": ["lookup::working::lends_to"], "tables::slot_live": ["lookup::slot_named"], "tables::slot_generation": ["lookup::slot_named"],
}
SLOT_READERS = {"tables::slot_live", "tables::slot_generation"}
# The places that are read: by slot_word a word of a slot, by the others N, S and, for the next task, the sequence, and rows: a task and the head
# of a slot.
ROWS = "tables::record"
ROW, RECORD, VIEW = f"{ROWS}::read", f"{ROWS}::load", "tables::view"
PLACES = {
    WORD: {
        SLOT: "SLOTS_AT + SLOT_WORDS * i + k", "tables::task_count": "0", "tables::slot_count": "1", "tables::ready_count": "READY_AT",
        "tables::ready_entry": "SEQUENCE_AT + k", ROW: "at + k",
    },
    ROW: {RECORD: "at"},
    RECORD: {"tables::load_task": "TASKS_AT + TASK_WORDS * i", "tables::load_head": "SLOTS_AT + SLOT_WORDS * i"},
}
# The search and its look, as they were read: it begins once with no look, and goes on by looks behind the last alone.
READ = {
    SEARCH: "let mut last = none(); while last.count < slots { last = next_look(m, last); if is_match(last, name) { return last; } } last",
    LOOK: "let i = last.count as usize; Look { count: last.count + 1, generation: tables::slot_generation(m, i), live: tables::slot_live(m, i), "
          "name: tables::slot_name(m, i), }",
}
HEAD = re.compile(r'(?:pub )?(?:extern "C" )?fn (\w+)(?:<[^(]*>)?\(')
BYTES = re.compile(r"(\w+): (?:&(?:mut )?\[u8\]|View<'_>)")
# How a kind of row is read: each of its words once, in order.
KIND = re.compile(r"^impl Record<(\d+)> for (\w+) \{\n((?:(?!\}).*\n)*)\}$", re.M)
KIND_READ = re.compile(r"    fn read\(m: &\[u8\], at: usize\) -> \w+\n(?:        .*\n)*?    \{\n        (\w+) \{\n((?:            \w+: .*,\n)+)        \}\n    \}\n")
# A view's method, which hands its bytes and its own arguments to a function of tables.
METHOD = re.compile(r"^    pub fn (\w+)\(self((?:, \w+: \w+)*)\) -> \w+\n(?:        .*\n)*?    \{\n        super::(\w+)\(self\.bytes((?:, \w+)*)\)\n    \}$", re.M)
LOOP = re.compile(r"\b(?:while|for|loop)\b")


class Fault(Exception):
    """What is wrong with ident's reads."""


def sources():
    """Each file of the crates by the path of its module."""
    found = {}
    for path in sorted(CRATES.glob("*/src/*.rt")):
        crate = path.parts[-3]
        found[crate if path.stem in ("lib", "main") else f"{crate}::{path.stem}"] = path.read_text()
    return found


def resolved(name, module, text):
    """A called name in full: through `super`, a `use`, a module beside it or a crate."""
    first, *rest = name.split("::")
    if not rest:
        used = re.search(rf"^(?:pub )?use (\w+)::\{{(?:\w+, )*{name}(?:, \w+)*\}};", text, re.M)
        return f"{module}::{used[1]}::{name}" if used else f"{module}::{name}"
    if first == "super":
        return "::".join([module.rsplit("::", 1)[0], *rest])
    if used := re.search(rf"^use ((?:\w+::)+{first});", text, re.M):
        return "::".join([used[1], *rest])
    return f"{module}::{name}" if re.search(rf"^(?:pub )?mod {first};", text, re.M) else name


class Function:
    """A function with lent bytes: whom it hands them to, one for each place, and how it uses them otherwise."""

    def __init__(self, module, parameters, body, text, views):
        self.lent = BYTES.findall(parameters)
        m = self.lent[0]
        body = re.sub(r"::<[^<>()]*>", "", re.sub(r"//.*", "", body))
        body = re.sub(r"\bView::new\((\w+)\)", r"\1", body)
        for method, read in views.items():
            body = re.sub(rf"\b{m}\.{method}\((\)?)", lambda end: f"tables::{read}({m}" + (end[1] or ", "), body)
        self.body = " ".join(body.split())
        places = [place for found in re.finditer(rf"\b{m}\b", self.body) if (place := self.place(*found.span()))]
        self.handed = [resolved(name, module, text) for name, _ in places]
        self.others = len(re.findall(rf"\b{m}\b", self.body)) - len(places)
        self.behind = [behind for _, behind in places]

    def place(self, starts, ends):
        """The function that the bytes named here are handed to, whole, and what is handed on behind them; nothing if they are used otherwise."""
        before, after = self.body[:starts].rstrip("& "), self.body[ends:]
        if before[-1:] not in ("(", ",") or after[:1] not in (")", ","):
            return None
        depth, at = 0, starts - 1
        while depth or self.body[at] != "(":
            depth += {")": 1, "(": -1}.get(self.body[at], 0)
            at -= 1
        name = re.search(r"(?:^|\.\.|[^\w:.])([a-z][\w:]*)$", self.body[:at])
        depth, end = 0, 0
        while depth or after[end] != ")":
            depth += {"(": 1, ")": -1}.get(after[end], 0)
            end += 1
        return (name[1], after[:end].lstrip(", ")) if name else None


def split(text):
    """The functions of a file: name, parameters and body, or no body if it is not laid out with its braces on lines of their own."""
    lines, found = text.split("\n"), []
    for at, line in enumerate(lines):
        if not (head := HEAD.match(line)):
            continue
        ends = next(n for n in range(at, len(lines)) if lines[n].startswith("}"))
        opens = [n for n in range(at, ends) if lines[n] == "{"]
        parameters = " ".join(lines[at:opens[0]] if opens else lines[at:ends]).split(" ensures ")[0].split(" requires ")[0]
        found.append((head[1], parameters, "\n".join(lines[opens[0] + 1:ends]) if opens else None))
    return found


def reads_in_order(text):
    """Whether each kind of row is read word by word: word k of its W at its place k, and nothing else of the bytes."""
    kinds = KIND.findall(text)
    for words, name, body in kinds:
        found = KIND_READ.findall(body)
        places = [f"words::word(m, {f'at + {k}' if k else 'at'})" for k in range(int(words))]
        if len(found) != 1 or found[0][0] != name or [line.split(": ", 1)[1].rstrip(",") for line in found[0][1].splitlines()] != places:
            return False
    return bool(kinds) and text.count("words::word(m,") == sum(int(words) for words, _, _ in kinds) + 1


def functions(texts):
    """Every function with lent bytes, by its path. One that is laid out otherwise than all others is not known."""
    rows = texts[ROWS].replace("R::read(m, at)", "read(m, at)")
    # the reading of a row, whichever kind it has, as one function
    row = Function(ROWS, "m: &[u8], at: usize", "words::word(m, at + k)", rows, {}) if reads_in_order(rows) else None
    texts, found = {**texts, ROWS: rows}, {ROW: row}
    views = {name: read for name, asked, read, given in METHOD.findall(texts[VIEW]) if re.sub(r": \w+", "", asked) == given}
    for module, text in texts.items():
        for name, parameters, body in split(text):
            if BYTES.search(parameters):
                found[f"{module}::{name}"] = None if body is None else Function(module, parameters, body, text, views)
    return found


def followed(known, root):
    """All functions that the bytes reach from a root, and for each the functions that hand them to it, one for each place."""
    reached, todo, places = set(), [root], {}
    while todo:
        name = todo.pop()
        if name in reached or name in (TEST, WORD) or name == NEXT != root:
            continue
        reached.add(name)
        each = known.get(name)
        if each is None or len(each.lent) != 1 or each.others:
            raise Fault(f"{name} is not known, or uses the bytes otherwise than by handing them on")
        for handed in each.handed:
            places.setdefault(handed, []).append(name)
        todo += each.handed
    return reached, places


def check_words(known, reached):
    """The words and rows that are read are the known ones, each once."""
    for name in reached:
        for read, places in PLACES.items():
            if read in known[name].handed and (known[name].handed != [read] or known[name].behind != [places.get(name)]):
                raise Fault(f"{name} reads another place than it is known to")


def check_next(known):
    """The next task is chosen without a look of the search, and reads no slot but those that tasks wait on."""
    reached, places = followed(known, NEXT)
    check_words(known, reached)
    if TEST in places or any(name.startswith(LOOK.rsplit("::", 1)[0]) for name in reached):
        raise Fault("the next task searches, or tests the tables")
    if set(places.get(SLOT, ())) != SLOT_READERS:
        raise Fault(f"for the next task slots are read by {', '.join(sorted(set(places.get(SLOT, ()))))}")
    for name, by in LENT.items():
        if places.get(name) != by:
            raise Fault(f"for the next task {name} is handed the bytes by {', '.join(places.get(name, ())) or 'nobody'}")


def check_ends(known, reached, places, texts):
    """The words that are read are the known ones, each once; a slot's by the look alone, which with the search is as it was read."""
    check_words(known, reached)
    if sorted(places.get(SLOT, ())) != FIELDS or any(places.get(field) != [LOOK] for field in FIELDS):
        raise Fault(f"a slot's words are not read by one look: {', '.join(name for field in FIELDS for name in places.get(field, ()))}")
    for name, body in READ.items():
        if known[name].body != body:
            raise Fault(f"{name} is not as it was read")
    looks = texts[LOOK.rsplit("::", 1)[0]]
    if re.search(r"^pub fn (?:none|next_look)\b|^    pub count:", looks, re.M):
        raise Fault("another file can begin to look, or write the count")


def way(texts, root):
    """The one way from a root to a slot's words."""
    known = functions(texts)
    reached, places = followed(known, root)
    check_ends(known, reached, places, texts)
    found = [LOOK]
    while found[-1] != root:
        callers = places.get(found[-1], [])
        if len(callers) != 1:
            raise Fault(f"{found[-1]} is handed the bytes at {len(callers)} places: {', '.join(callers)}")
        found += callers
    if (loops := [name for name in found if LOOP.search(known[name].body)]) != [SEARCH]:
        raise Fault(f"{', '.join(loops)}: on the way only the search goes round")
    if places.get(TEST, []) != [TESTED] * (root in ROOTS[:2]):
        raise Fault(f"the test for 25 is made by {', '.join(places.get(TEST, ())) or 'nobody'}")
    if places.get(NEXT, []) != [ANSWERED] * (root in ROOTS[:2]):
        raise Fault(f"the next task is asked for by {', '.join(places.get(NEXT, ())) or 'nobody'}")
    check_next(known)
    return found[::-1]


# What stands in the programs, and then programs that look at a slot again or behind the match: module, what stands there, what comes in its place.
SEARCHED = "    let last = looks::search(m, tables::slot_count(m), name);\n"
COUNTED = "    let looked = looks::count(last);\n"
LOOKED = "        last = next_look(m, last);\n"
MATCHED = "            return last;\n"
NAMED = "tables::slot_name(m, i)"
CALLED = "    calls::ident::ident(m, name)\n"
FOUND = "    search(m, name).done"
LENDERS = "    let lenders = working::load_lenders(v);\n"
HEAD_READ = "    let s = v.head(place as usize);\n"
WRONG = {
    "the search begins again for the identifier": ("calls::ident", COUNTED, COUNTED + SEARCHED),
    "the match is looked at again": ("calls::ident", "last.generation * rules", "tables::slot_generation(m, looked as usize - 1) * rules"),
    "the search goes on behind its match": ("lookup::looks", MATCHED, "            next_look(m, last);\n" + MATCHED),
    "the search starts over": ("lookup::looks", LOOKED, "        if last.count == 5 { last = none(); }\n" + LOOKED),
    "a look reads its slot's name twice": ("lookup::looks", NAMED, f"{NAMED} + 0 * {NAMED}"),
    "a look reads another slot too": ("lookup::looks", "    let i = last", "    let i = 0;\n    tables::slot_live(m, i);\n    let i = last"),
    "the bytes are read past all functions": ("calls::ident", COUNTED, "    let looked = looks::count(last) + m[520] as u32;\n"),
    "the number of slots is read beside a slot's word": ("tables", "    words::word(m, 1)\n", "    words::word(m, 130);\n    words::word(m, 1)\n"),
    "the search is made in a loop": ("calls::ident", SEARCHED, "    let last = loop {\n" + SEARCHED + "        break last;\n    };\n"),
    "the whole call is made twice": ("manager", CALLED, "    calls::ident::ident(m, name);\n" + CALLED),
    "the test is made again": ("manager", CALLED, "    agreement::is_agreeing(m);\n" + CALLED),
    "the step searches twice": ("calls::ident", FOUND, "    search(m, name);\n" + FOUND),
    "the next task searches": ("lookup", LENDERS, "    looks::search(v, v.slot_count(), 7);\n" + LENDERS),
    "the next task reads a slot for no task": ("lookup", LENDERS, "    v.head(0);\n" + LENDERS),
    "the slot of a wait is read twice": ("lookup::working", HEAD_READ, HEAD_READ + "    v.head(place as usize);\n"),
    "the step asks for the next task": ("calls::ident", FOUND, "    lookup::next_task(View::new(m));\n" + FOUND),
    "a row reads a word of another slot": (ROWS, "            ticks: words::word(m, at + 3),\n", "            ticks: words::word(m, at + 41),\n"),
    "a row reads a word twice": (ROWS, "            ticks: words::word(m, at + 3),\n", "            ticks: words::word(m, at + 3) + 0 * words::word(m, at + 3),\n"),
    "others can look too": ("lookup::looks", "\nfn next_look(", "\npub fn next_look("),
}


def main():
    texts = sources()
    try:
        for root in ROOTS:
            print("the words of a slot are read by one way: " + " > ".join(way(texts, root)))
    except Fault as found:
        sys.exit(f"check_reads.py: {found}")
    for what, (module, old, new) in WRONG.items() if sys.argv[1:] == ["--wrong"] else ():
        if texts[module].count(old) != 1:
            sys.exit(f"check_reads.py: {what}: its text stands {texts[module].count(old)} times in {module}")
        try:
            for root in ROOTS:
                way({**texts, module: texts[module].replace(old, new)}, root)
            sys.exit(f"check_reads.py: not refused: {what}")
        except Fault as found:
            print(f"refused: {what}: {found}")


if __name__ == "__main__":
    main()
