"""Brings the must-fail edits of specs/ over: the renaming goes by files, so each edited file is turned whole, and the edit read off it again.

    edits.py in COPY TABLE          in a copy of the old repository: writes beside each file that an edit of specs/ changes that file, edited
    edits.py out COPY TABLE ROOT    from that copy, turned by port.py: writes each edit anew into ROOT, by the lines that differ
"""
import collections
import difflib
import json
import pathlib
import sys


def parts(path):
    """The words above an edit, and (file, old, new) of each replacement."""
    words, changes, file, old = [], [], None, None
    for line in path.read_text().splitlines():
        key, _, rest = line.partition(":")
        rest = rest.removeprefix(" ")
        if key == "file":
            file = rest.strip()
        elif key == "old":
            old = rest
        elif key == "new":
            changes.append((file, old, rest))
        elif line.strip():
            words.append(line)
    return words, changes


def edits_in(copy, table):
    rows = []
    for path in sorted(copy.glob("crates/*/must-fail/*.edit")):
        words, changes = parts(path)
        if not any(file.startswith("specs/") for file, _, _ in changes):
            continue
        crate, texts = path.parent.parent, {}
        for file, old, new in changes:
            text = texts.setdefault(file, (crate / file).read_text())
            if text.count(old) != 1:
                sys.exit(f"{path}: {text.count(old)} times: {old}")
            texts[file] = text.replace(old, new)
        for file, text in texts.items():
            edited = f"{file.removesuffix('.antt')}Xedit{len(rows) + 1}.antt"
            (crate / edited).write_text(text)
            rows.append((crate.name, path.name, file, edited, words))
    table.write_text(json.dumps(rows))
    print(f"{len(rows)} edited files")


def replaced(before, after):
    """(old line, new line) of what differs; a line more is written behind the one before it, and a line less as an empty one."""
    for tag, i, i_end, j, j_end in difflib.SequenceMatcher(None, before, after, False).get_opcodes():
        old, new = before[i:i_end], after[j:j_end]
        if tag == "equal":
            continue
        if not old:
            raise ValueError("a line stands alone")
        if len(new) > len(old):
            new[len(old) - 1:] = [" ".join([new[len(old) - 1], *(line.strip() for line in new[len(old):])])]
        elif not new:
            raise ValueError("a line goes")
        new += [""] * (len(old) - len(new))
        yield from ((a, b) for a, b in zip(old, new) if a != b)


def edits_out(copy, table, root):
    by_edit = collections.defaultdict(list)
    for crate, name, file, edited, words in json.loads(table.read_text()):
        by_edit[crate, name].append((file, edited, words))
    left = 0
    for (crate, name), files in by_edit.items():
        out = list(files[0][2])
        try:
            for file, edited, _ in files:
                now, turned = (root / f"crates/{crate}/{file}").read_text(), copy / f"crates/{crate}"
                out.append(f"file: {file}")
                for old, new in replaced(*((turned / each).read_text().split("\n") for each in (file, edited))):
                    if now.count(old) != 1:
                        raise ValueError(f"{now.count(old)} times: {old}")
                    now = now.replace(old, new)
                    out += [f"old: {old}", f"new: {new}"]
            (root / f"crates/{crate}/must-fail/{name}").write_text("\n".join(out) + "\n")
        except ValueError as why:
            left += 1
            print(f"left: {crate}/{name}: {why}")
    print(f"{len(by_edit) - left} edits written, {left} left")


def main(way, *paths):
    {"in": edits_in, "out": edits_out}[way](*map(pathlib.Path, paths))


main(*sys.argv[1:])
