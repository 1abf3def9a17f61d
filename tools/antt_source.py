"""The declarations of an antt source file."""
import re

HEAD = re.compile(
    r"(?P<words>(?:(?:pub|abbrev|unfoldable) )*)"
    r"(?:(?P<sort>record|data|ruleset) (?P<it>\S+)|(?P<name>[^\s(){}]+) :(?= |$)|infix[lr]? \d+ (?P<fixed>\S+))"
)


class Declaration:
    """Its words (`pub`, `abbrev`, ..), name, statement and body; the modules around it, with their parameters, open the statement."""

    def __init__(self, depth, head, around):
        self.depth, self.words = depth, head["words"] + (head["sort"] or "")
        self.name = head["it"] or head["name"] or f"infix {head['fixed']}"
        self.statement, self.body = [*around, head.string], []

    def is_theorem(self):
        return self.words == "pub "

    def stated(self):
        return plain(" ".join(self.statement))

    def proved(self):
        return plain(" ".join(self.body))

    def whole(self):
        return plain(" ".join(self.statement + self.body))


def declarations(text):
    found, around, now, open_header = [], [], None, False
    for line in text.splitlines():
        line = re.sub(r"(^|\s)--(\s.*|$)", "", line).rstrip()
        bare = line.lstrip()
        depth = len(line) - len(bare)
        if not bare or re.match(r"(pub )?(use|mod) ", bare):
            continue
        if open_header:
            around[-1] = (around[-1][0], f"{around[-1][1]} {bare}")
            open_header = not bare.endswith("where")
            continue
        if now and depth > now.depth:
            (now.body or now.statement).append(bare)
            continue
        while around and depth <= around[-1][0]:
            around.pop()
        head = HEAD.match(bare)
        if bare.startswith("module "):
            now = None
            around.append((depth, bare))
            open_header = not bare.endswith("where")
        elif head:
            now = Declaration(depth, head, [header for _, header in around])
            found.append(now)
        elif now:
            now.body.append(bare)
    return found


def plain(text):
    """A text without what does not count, so that two that mean the same are the same."""
    text = re.sub(r"\s+", " ", text).strip()
    return re.sub(r"(?<=[({\[]) | (?=[)}\],;])", "", text)
