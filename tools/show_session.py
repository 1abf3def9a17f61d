"""Shows each line of a session beside the program's answer and the name of its status.

show_session.py PROGRAM SESSION..     the program's own output is the middle column, as it is
"""
import pathlib
import re
import signal
import subprocess
import sys

WIDEST = 48  # columns of a line that are shown
top = pathlib.Path(__file__).resolve().parent.parent


def status_names():
    """The header's statuses, number to name."""
    header = (top / "include/mastclover.h").read_text()
    section = re.search(r"^/\* Statuses.*?\n\n", header, re.M | re.S)[0]
    return {number: name for name, number in re.findall(r"^#define MAST_(\w+) (\d+)", section, re.M)}


def lines_of(session):
    """As the program reads them: a last line without a newline counts, nothing after a last newline is no line."""
    lines = session.split(b"\n")
    return lines if lines[-1] else lines[:-1]


def shown(line):
    text = "".join(chr(b) if 32 <= b < 127 else f"\\x{b:02x}" for b in line)
    return text if len(text) <= WIDEST else f"{text[:WIDEST - 2]}.."


def show(program, path, names):
    session = pathlib.Path(path).read_bytes()
    done = subprocess.run([program], input=session, stdout=subprocess.PIPE, check=True)
    lines, answers = lines_of(session), done.stdout.decode().splitlines()
    if len(lines) != len(answers):
        raise ValueError(f"{path}: {len(lines)} lines and {len(answers)} answers")
    texts = [shown(line) for line in lines]
    first = max([len("line"), *map(len, texts)])
    second = max([len("status value next"), *map(len, answers)])
    explained = pathlib.Path(path).with_suffix(".md")
    print(f"{path}, explained in {explained}" if explained.is_file() else path)
    print(f"\n       {'line':{first}}  status value next")
    for number, (text, answer) in enumerate(zip(texts, answers), 1):
        name = "no line of a session" if answer == "bad" else names[answer.split()[0]]
        print(f"{number:5}  {text:{first}}  {answer:{second}}  {name}")
    if not lines:
        print("       (no line, no answer)")


def main():
    program, *paths = sys.argv[1:]
    names = status_names()
    for number, path in enumerate(paths):
        if number:
            print()
        try:
            show(program, path, names)
        except OSError as fault:
            sys.exit(f"{path}: {fault.strerror}")
        except ValueError as fault:
            sys.exit(str(fault))


signal.signal(signal.SIGPIPE, signal.SIG_DFL)
main()
