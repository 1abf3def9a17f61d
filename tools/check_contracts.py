"""Every `pub fn` of the libraries has an `ensures` that says something, and no entry point on lent tables has a `requires`.

Entry points are the public functions of the crates named in ENTRIES, outside of their private modules, and every
exported function. An `ensures` says nothing if it speaks of the result alone, as `result.status ≡ result.value`, or if
each fact that it states, behind its premises, is of the same two sides.
"""
import pathlib
import re
import sys

from rt_source import closed, functions

# records and records_c are for callers that keep their own records: these too may lend whatever they have.
ENTRIES = {"manager", "capi", "session", "state", "itron_calls", "records", "records_c"}
# Words that name neither a definition nor an argument, and those that only pass the result's value on.
EMPTY = {"result", "true", "false", "refl", "tt", "λ", "let", "in", "emp", "IfOk", "IfErr", "IfSome", "OnOk", "OnErr", "OnSome", "IfNone"}
# Relations that anything has to itself.
SELF = "≡|≤|↔|=="


def says_nothing(ensures):
    bound = set(re.findall(r"λ\s+([\w ]+)\.", ensures)) | set(re.findall(r"\blet (\w+) =", ensures))
    text = re.sub(r"λ\s+[\w ]+\.|[⌜⌝]", " ", ensures)
    words = re.findall(r"(?<![\w.])(?<! \.)[^\W_][\w·-]*", text)
    if not set(words) - EMPTY - {name for names in bound for name in names.split()}:
        return True
    return all(map(is_empty, parts(text)))


def split(text, sign):
    """The text at each sign, a pattern, outside of brackets."""
    depth, found, at = 0, [""], 0
    while at < len(text):
        here = re.compile(sign).match(text, at) if depth == 0 else None
        depth += (text[at] in "([{") - (text[at] in ")]}")
        if here:
            found.append("")
        else:
            found[-1] += text[at]
        at = here.end() if here else at + 1
    return found


def is_bracketed(text):
    return text.startswith("(") and closed(text, 0) == len(text)


def parts(text):
    """The facts that `×` or `∗` joins, without the names `(x : A)` that they are of."""
    found = [part.strip() for part in split(text, "[×∗]")]
    return [part for part in found if not is_bracketed(part) or not re.match(r"\([\w\s]+ : ", part)]


def is_empty(part):
    """Whether a fact, behind what it has for premises, has the same two sides."""
    part = " ".join(split(split(part, "→")[-1], r"\bin\b")[-1].split())
    if is_bracketed(part):
        return all(map(is_empty, parts(part[1:-1])))
    sides = [side.strip() for side in split(part, SELF)]
    return len(sides) == 2 and sides[0] == sides[1]


def is_open(path):
    """Whether others can call what a file offers: lib.rt, or a module that lib.rt declares `pub`."""
    library = path.parent / "lib.rt"
    return path == library or not re.search(rf"^mod {path.stem};", library.read_text(), re.M)


def faults(path, crate):
    for function in functions(path.read_text()):
        if not function.public:
            continue
        ensures = [text for kind, text in function.clauses if kind == "ensures"]
        if not ensures:
            yield f"{function.line}: `{function.name}` has no ensures"
        elif all(map(says_nothing, ensures)):
            yield f"{function.line}: the ensures of `{function.name}` says nothing"
        entry = crate in ENTRIES and is_open(path) or function.exported
        if entry and any(kind == "requires" for kind, _ in function.clauses):
            yield f"{function.line}: `{function.name}` is an entry point and has a requires"


def main():
    top = pathlib.Path(__file__).resolve().parent.parent
    found = 0
    for path in sorted(top.glob("crates/*/src/**/*.rt")):
        crate = path.relative_to(top).parts[1]
        for fault in faults(path, crate):
            print(f"{path.relative_to(top)}:{fault}")
            found += 1
    sys.exit(1 if found else 0)


if __name__ == "__main__":
    main()
