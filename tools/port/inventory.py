"""What a repository declares in specs/ and proofs/, as the port's renaming asks for it."""
import os
import re

QUIET = re.compile(r'"(?:[^"\\\n]|\\.)*"|(?<![^\s(){}.;,@"«»])--[^\n]*|\{-.*?-\}', re.S)
NAME = r'[^\s(){}.;,@"«»:=]+'
WORDS = r"(?:pub |abbrev |unfoldable |pattern |axiom |mutual )*"
HEAD = re.compile(
    rf"^( *)({WORDS})(data |record |ruleset )?({WORDS})({NAME}(?: {NAME})*?)(?: \{{[^{{}}]*\}})*(?: [({{].*[)}}])? :(?: |$)"
)


def blank(text):
    """The text with strings and comments blanked, line for line."""
    return QUIET.sub(lambda m: re.sub(r"[^\n]", " ", m[0]), text)


def files(root):
    """Each .antt file below specs/ and proofs/, in a fixed order."""
    for crate in sorted(os.listdir(f"{root}/crates")):
        for kind in ("specs", "proofs"):
            for folder, below, names in os.walk(f"{root}/crates/{crate}/{kind}"):
                below.sort()
                yield from (os.path.join(folder, name) for name in sorted(names) if name.endswith(".antt"))


def depth_of(line):
    return len(line) - len(line.lstrip())


def signature(lines, at, depth, rest, in_holder):
    """The type of a declaration, of which the lines below go on that stand deeper."""
    for line in lines[at + 1:]:
        if line.strip() and (depth_of(line) <= depth or re.match(r"\s*where\b", line)):
            break
        if line.strip() and not in_holder:
            rest += " " + line.strip()
    return rest


def kind_of(word, holder, depth, rest):
    if word:
        return word
    if holder and depth > holder[1]:
        return "field" if holder[0] == "record" else "constructor"
    if re.match(r"\s*(?:goal|tie)\.", rest):
        return "answer"
    if re.search(r"(?:→ |^\s*)Type(?: \S+)?\s*$", re.sub(r" where.*", "", rest).rstrip()):
        return "type"
    return "def"


def declared(text):
    """(name, kind) of each declaration: def, type, record, data, ruleset, field, constructor or answer to a goal."""
    lines, found, holder = blank(text).split("\n"), [], None
    for at, line in enumerate(lines):
        depth = depth_of(line)
        if holder and line.strip() and depth <= holder[1]:
            holder = None
        if not (head := HEAD.match(line)):
            continue
        word = (head[3] or "").strip()
        rest = signature(lines, at, depth, line[head.end():], holder is not None)
        kind = kind_of(word, holder, depth, rest)
        found += [(name, kind) for name in head[5].split() if name not in ("where", "let", "in", "module")]
        if word in ("record", "data"):
            holder = (word, depth)
    return found
