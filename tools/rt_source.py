"""The functions of a Rattle source file, with their clauses."""
import collections
import re

# `header` runs from the first word to the end of the last clause; `clauses` has (requires|ensures|ghost, text in the braces), named and starred ones too.
Function = collections.namedtuple("Function", "line name public exported header clauses")

FN = re.compile(r"^[ \t]*(?P<pub>pub(?:\([^)]*\))? )?(?:(?:const|final|unsafe) )*(?P<c>extern \"C\" )?fn (?P<name>\w+)", re.M)
IMPL = re.compile(r"^(?:unsafe )?impl\b", re.M)
# Of what stands behind an impl's own parameters: the type that it is for.
OWNER = re.compile(r"(?:[^{]*?\bfor )?\s*(?:\w+::)*(\w+)[^{]*(?=\{)")
# What a signature can end at, and the brackets within which it can't.
ENDS = re.compile(r"[(\[]|[{;]|\b(?:ghost|requires|ensures)\b")
CLAUSE = re.compile(r"\s*(ghost|requires|ensures)\b[^{;]*(?=\{)")
EXPORTS = re.compile(r"#\[(?:unsafe\()?(?:no_mangle|export_name)\b[^\n]*\]\s*(?:#\[[^\n]*\]\s*)*$")


def uncommented(text):
    return re.sub(r"//.*", "", text)


def closed(text, at):
    """The place behind the bracket that closes the one at `at`."""
    depth = 0
    while at < len(text):
        depth += (text[at] in "([{") - (text[at] in ")]}")
        at += 1
        if depth == 0:
            break
    return at


def behind_generics(text, at):
    """The place behind the type parameters at `at`, if any stand there: `>` closes them, and an arrow does not."""
    if text[at:at + 1] != "<":
        return at
    depth = 0
    while at < len(text):
        depth += (text[at] == "<") - (text[at] == ">" and text[at - 1] != "-")
        at += 1
        if depth == 0:
            break
    return at


def behind_signature(text, at):
    """The place behind a function's parameters at `at`, its result and its bounds."""
    at = closed(text, at)
    end = at
    while found := ENDS.search(text, end):
        if found[0] not in "([":
            return at + len(text[at:found.start()].rstrip())
        end = closed(text, found.start())
    return len(text)


def impls(text):
    """Each impl block: where it begins and ends, and the type that it is for."""
    for found in IMPL.finditer(text):
        if owner := OWNER.match(text, behind_generics(text, found.end())):
            yield found.start(), closed(text, owner.end()), owner[1]


def functions(text):
    """Each function of the file, by its name or, in an impl block, TYPE::NAME."""
    text = uncommented(text)
    blocks = list(impls(text))
    for found in FN.finditer(text):
        end, clauses = behind_signature(text, behind_generics(text, found.end())), []
        while clause := CLAUSE.match(text, end):
            end = closed(text, clause.end())
            clauses.append((clause[1], text[clause.end() + 1:end - 1].strip()))
        inside = [owner for start, stop, owner in blocks if start < found.start() < stop]
        line = text.count("\n", 0, found.start("name")) + 1
        exported = bool(found["c"] or EXPORTS.search(text, 0, found.start()))
        yield Function(line, "::".join([*inside, found["name"]]), found["pub"] == "pub ", exported, text[found.start():end], clauses)
