"""Every name that docs/MAP.md cites, as `path`: `name` `name`, is declared by that file of the repository."""
import pathlib
import re
import sys

top = pathlib.Path(__file__).resolve().parent.parent
WORD = r"(?<![\w-]){}(?![\w-])"
# How a file of each kind declares a name; {} is the name.
DECLARED = {
    ".antt": r"^\s*(?:(?:abbrev|unfoldable|pub) )*(?:(?:record|data|ruleset) {0}(?=\s)|{0} :(?=\s))",
    ".rt": r"^\s*(?:pub(?:\(\w+\))? )?(?:extern \"C\" )?(?:fn|struct|enum|const|mod|static|type|trait) {}\b",
    ".rs": r"^\s*(?:pub(?:\(\w+\))? )?(?:fn|struct|enum|const|mod|static|type|trait) {}\b",
    ".h": r"^(?:#define {0}\b|typedef .*\b{0};|\}} {0};|\w.*\b{0}\()",
    ".c": r"^(?:#define |\w.*\b){}\(",
    ".py": r"^(?:def |class )?{}\b",
    # what a must-fail edit replaces or puts there
    ".edit": rf"^(?:old|new):.*{WORD}",
}
# any other file, as a shell script: the word itself, not in a comment
OTHER = rf"^(?!\s*#).*{WORD}"


def missing(path, name):
    file = top / path
    if not file.is_file():
        return f"there is no file {path}"
    pattern = DECLARED.get(file.suffix, OTHER).format(re.escape(name))
    if not re.search(pattern, file.read_text(), re.M):
        return f"{path} does not declare {name}"
    return None


text = (top / "docs/MAP.md").read_text()
cited = re.findall(r"`([\w./-]+)`:((?:\s`[^`\s]+`)+)", text)
entries = [(path, name) for path, names in cited for name in re.findall(r"`([^`]+)`", names)]
found = [m for m in (missing(*e) for e in entries) if m]
print("\n".join(found) if found else f"{len(entries)} names")
sys.exit(1 if found or not entries else 0)
