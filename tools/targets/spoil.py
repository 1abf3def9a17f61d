"""Makes four calls of a record wrong: spoil.py RECORD

The status of the last Classic call, the count of slots of the first ident, the code of the first ITRON call, and the sum over the list
of the last one. compare/src/record.rs says what a record is."""
import sys

START, IDENT, LEND, WRITE, END, LIST, FIRST, CODE = 0, 2, 16, 17, 18, 19, 32, 40


def entry_length(kind, second):
    """The words of an entry, given its second number."""
    if kind == LEND:
        return 3
    if kind == WRITE:
        return 3 + (second + 3) // 4
    if kind == LIST:
        return 3 + second
    if kind >= FIRST:
        return 13
    return 10 + (second if kind == START else 0)


def main():
    (path,) = sys.argv[1:]
    with open(path, "rb") as file:
        data = bytearray(file.read())
    word = lambda at: int.from_bytes(data[4 * at:4 * at + 4], "little")
    entries, at = [], 0
    while word(at) != END:
        entries.append((word(at), at, entry_length(word(at), word(at + 2))))
        at += entries[-1][2]
    ident = next(at for kind, at, _ in entries if kind == IDENT)
    classic = [at + length - 4 for kind, at, length in entries if kind < LEND]
    itron = [at for kind, at, _ in entries if FIRST <= kind < CODE]
    for wrong in (ident + 2, classic[-1], itron[0] + 6, itron[-1] + 12):
        data[4 * wrong] ^= 1
    with open(path, "wb") as file:
        file.write(data)


main()
