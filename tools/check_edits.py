"""Every must-fail edit was refused by a fact that no longer holds, and every entry point has an edit.

check_edits.py LOG [CRATE..]      LOG is what `rt ci` or `rt must-fail` printed; of these crates or of all

LOG has one line for each edit, cut. Where that doesn't settle what refused it, tools/edited.py checks a copy of the crate with the edit, and
keeps what that says in build/edits/CRATE/LABEL.log. An edit shows nothing if all its errors are of these kinds:
  unfit   the proof file no longer fits the code, as where a goal or a field is gone;
  quoted  a proof quotes the text of a definition that the edit changed: a true restatement would be refused as well.
"""
import pathlib
import re
import sys

from antt_source import declarations
from edited import Edit, texts
from rt_source import functions, uncommented
from sources import ROOT

# Crates with entry points: each has an edit at least.
ENTRIES = ("manager", "capi", "session", "playing", "mast_session", "runner", "capi_run", "mast_sections", "state", "capi_state",
           "mast_state", "itron_calls", "capi_itron", "records", "records_c")
# Crates in which each public function has an edit: one inside it, or one whose first lines have its name in backticks.
EACH_FUNCTION = ("manager",)

# A line of rt for an edit: what became of it, whether only for a name that is gone or a limit, and the first error, of 160 letters.
TRIED = re.compile(r"rt: must-fail (\w+)/(\S+)\.edit: (refused, as it must be|BAD EDIT|NOT REFUSED|NOT TRIED)( \(only [^)]*\))?(?:: (.*))?$")
NOT_PROVED = re.compile(r"note: (?:\./)?(\S+?):(\d+):\d+: (?:it is not proved that |`search` found no proof )")
# The first words of an error that are a fact whatever follows, and of one that shows two types or sides, with the first of them as far as it is seen.
FAILS = re.compile(r"\S+:\d+:\d+: error: `[^`]+`: `(?:search`: no proof of|omega`: the goal does not follow) ")
SHOWS = re.compile(r"\S+:\d+:\d+: error: `[^`]+`: (?P<how>as printed|computed as far as they go|expected type)(?:, the two (?:types|sides) "
                   r"(?:are|.*?where one has))?(?: `(?P<end>[^`]{8,}|[^`]+(?=`)))?")

ERROR = re.compile(r"\S+:\d+:\d+: error: ")
FOLLOWS = re.compile(r"(?:`[^`]*`: )?(?:\d+ declarations? that depends? on `[^`]+`, which was |`[^`]+` was not admitted )")
# Of a proof that no longer fits: what it names is gone, or what it rewrites stands no longer where it did.
UNFIT = re.compile(r"that can be named from here|has no (?:field|member|constructor|clause|case|`)|not in scope|takes? \d+ arguments?"
                   r"|`rw`: no occurrence of |record `[^`]+` \(nearest: ")
DIFFER = re.compile(r"the two (?:types|sides) .*?where one has `(.*?)`.*?the other has `(.*?)`", re.S)
TYPES = re.compile(r"expected type `([^`]*)`,?\s+but this has type `([^`]*)`")
COMPUTED = re.compile(r"computed as far as they go, the two (?:types|sides) (?:(?:first )?differ|are) |neither could be computed")
SAME = re.compile(r"the first \d+ bytes of the two (?:types|sides) are identical")
# A place in the code, as the proof files name it: the code between two such places has another shape.
PLACE = re.compile(r"\b[Ll]ts\.[A-Z]|\A\W*(?:After|Then|Else|In|Start)\b")
# What may be one, or be of one, in a line that is cut.
MAYBE_PLACE = re.compile(r"\b[Ll]ts\.|\bgoal\.|\btie\.|\.proofs\.|`(?:After|Then|Else|In|Start)\b")
# The proof of a function, in a folder of its own; any other file of proofs/ has lemmas.
OF_FUNCTION = re.compile(r"(?:\./)?proofs/(?:[^/]+/)*[+a-z][^/]*/(?:Proof|Invariants|Answers)\.antt:")


def tokens(text):
    return set(re.split(r"[\s(){};,]+", text))


def is_of_code(edit):
    """Whether the edit changes code alone, so that no proof can quote what it changes, and no lemma be refused for it."""
    return all(file.startswith("src/") for file, *_ in edit.changes)


def changed_definitions(edit):
    """The definitions of specs/ whose text the edit changes, and those of the crate that are made of them."""
    every = [d for p in sorted((ROOT / f"crates/{edit.crate}/specs").glob("**/*.antt")) for d in declarations(p.read_text())]
    olds = [" ".join(old.split()) for file, old, _ in edit.changes if file.startswith("specs/") and not old.startswith("use ")]
    names = {d.name for d in every for old in olds if old in " ".join(" ".join(d.statement + d.body).split())}
    grown = True
    while grown:
        words = names | {name.strip("◌") for name in names}
        more = {d.name for d in every if words & tokens(d.whole())} - names
        grown, names = bool(more), names | more
    return names or (set() if is_of_code(edit) else {"what it proves"})


def errors(text):
    """The errors of a check that are not mere consequences of others. A goal without an answer has its error in a note: it may only lack a
    lemma that was refused, or the answer that it had under another name."""
    records = re.split(r"^(?=\S+:\d+:\d+: (?:error|note): |note: |fn |help: |logic)", text, flags=re.M)
    found, open_goals = [], []
    for record in records:
        at = ERROR.match(record)
        if at and not FOLLOWS.match(record, at.end()):
            found.append(record)
        elif NOT_PROVED.match(record):
            open_goals.append(record)
    lacking = any(not OF_FUNCTION.match(record) or UNFIT.search(record.splitlines()[0]) for record in found)
    return found if lacking else found + open_goals


def kind(error, changed):
    if UNFIT.search(error.splitlines()[0]):
        return "unfit"
    ends = DIFFER.search(error)
    if any(all(map(PLACE.search, pair.groups())) for pair in (ends, TYPES.search(error)) if pair):
        return "unfit"
    if SAME.search(error) and changed:
        return "quoted"
    if ends and not COMPUTED.search(error):
        heads = {end.strip(" (").split()[0].split(".")[-1] for end in ends.groups() if end.strip(" (")}
        if heads & changed:
            return "quoted"
    return "fact"


def tried(log):
    """What became of each edit, by its name."""
    lines = (TRIED.match(line) for line in log.splitlines())
    return {f"{found[1]}/{found[2]}": found.groups()[2:] for found in lines if found}


def has_answers(edit, file, line):
    """Whether the function that stands there has a proof file, or may have one together with others of its module."""
    folder = ROOT / "crates" / edit.crate
    lines = (folder / file).read_text().splitlines()
    while lines[line - 1:line] and lines[line - 1].lstrip().startswith("#["):
        line += 1
    names = [function.name.split("::")[-1] for function in functions("\n".join(lines)) if function.line <= line]
    module = "" if pathlib.Path(file).stem in ("lib", "main") else f"{pathlib.Path(file).stem}/"
    return not names or any(any((folder / "proofs").glob(f"{it}/*.antt")) for it in (f"**/{names[-1]}", f"{module}+*"))


def is_settled(edit, said):
    """Whether the first error is a fact by itself: a goal that a tactic can't prove, or two types that differ when they are computed; where
    only code was changed also an open goal of a function without answers, and whatever else is no place in the code."""
    at, open_goal = ERROR.match(said), NOT_PROVED.match(said)
    if not at:
        return bool(open_goal) and is_of_code(edit) and not has_answers(edit, open_goal[1], int(open_goal[2]))
    if UNFIT.search(said) or FOLLOWS.match(said, at.end()):
        return False
    shown = SHOWS.match(said)
    if FAILS.match(said) or MAYBE_PLACE.search(said) or shown and not shown["end"]:
        return bool(FAILS.match(said))
    return is_of_code(edit) or bool(shown) and shown["how"].startswith("computed")


def told(edit, line):
    """What a line of the log has against an edit; None if it is refused by a fact, and True if that isn't settled."""
    if line is None:
        return "has no line in the log: run `rt ci`, or `rt must-fail` in its place"
    word, only, said = line
    if word != "refused, as it must be":
        return f"is a {word}: {said}" if word == "BAD EDIT" else f"is {word}: {said}"
    if only:
        return f"was refused{only.split(', so ')[0]}): {said}"
    return None if said and is_settled(edit, said) else True


def verdict(edit, text):
    """None for an edit that was refused by a fact, else what is wrong with it."""
    found, changed = errors(text), changed_definitions(edit)
    kinds = [kind(error, changed) for error in found]
    if "fact" in kinds:
        return None
    if not found:
        return "was refused with no error that can be read"
    place = " ".join(found[0].split())[:160]
    if "quoted" in kinds:
        return f"was refused for its text alone: a proof quotes {', '.join(sorted(changed))}: {place}"
    return f"was refused because the proof file no longer fits the code: {place}"


def spans(crate):
    """(name, text) of each public function, body included."""
    for path in sorted((ROOT / f"crates/{crate}/src").glob("**/*.rt")):
        text = uncommented(path.read_text())
        for function in functions(text):
            if function.public:
                start = text.index(function.header)
                rest = re.search(r"^\s*(?:pub )?(?:extern \"C\" )?fn ", text[start + len(function.header):], re.M)
                stop = start + len(function.header) + rest.start() if rest else len(text)
                yield function.name, text[start:stop]


def uncovered(edits):
    for crate in ENTRIES:
        if not any(edit.crate == crate for edit in edits):
            yield f"{crate} has entry points and no must-fail edit"
    for crate in EACH_FUNCTION:
        own = [edit for edit in edits if edit.crate == crate]
        for name, text in spans(crate):
            inside = any(old in text for edit in own for file, old, _ in edit.changes if file.startswith("src/"))
            if not inside and not any(f"`{name}`" in edit.words for edit in own):
                yield f"{crate}::{name} has no must-fail edit"


def main():
    log, *wanted = sys.argv[1:]
    edits = [Edit(path) for path in sorted(ROOT.glob("crates/*/must-fail/*.edit"))]
    judged = [edit for edit in edits if not wanted or edit.crate in wanted]
    lines = tried(pathlib.Path(log).read_text())
    said = {edit: told(edit, lines.get(edit.name())) for edit in judged}
    unsettled = [edit for edit in judged if said[edit] is True]
    said |= {edit: verdict(edit, text) for edit, text in texts(unsettled)}
    faults = [f"{edit.name()} {said[edit]}" for edit in judged if said[edit]]
    without = [] if wanted else list(uncovered(edits))
    for line in faults + without:
        print(line)
    print(f"{len(judged)} must-fail edits, {len(judged) - len(faults)} refused by a fact, {len(unsettled)} of them looked at whole")
    sys.exit(1 if faults or without or not judged else 0)


if __name__ == "__main__":
    main()
