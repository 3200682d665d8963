"""Explains on standard output a status that the program ended with: for ./firsim, which shows it to a person.

usage: explain.py PROGRAM STATUS WORD..

A fault is shown with the file, its line and column, the line's own text, a caret, and what docs/FAULTS.md says to change; the program answers the
same each time, so it is asked again for the fault's line. Other statuses are told by the tables of docs/COMMANDS.md.
"""
import os
import re
import shutil
import subprocess
import sys
import unicodedata
from pathlib import Path

TOP = Path(__file__).resolve().parent.parent
TAB = 8


def section(page, title):
    """What stands under a heading of a page of docs/, up to the next one of its height."""
    height = title.split()[0]
    found = re.search(rf"^{re.escape(title)}\n(.*?)(?=^{height} |\Z)", (TOP / "docs" / page).read_text("utf-8"), re.M | re.S)
    return found[1].strip("\n") if found else ""


def rows_of(text):
    """The cells of a table's rows, without its head."""
    lines = [re.split(r"(?<!\\)\|", line.strip()[1:-1]) for line in text.splitlines() if line.startswith("|")]
    return [[cell.strip() for cell in cells] for cells in lines[2:]]


def plain(text):
    return text.replace("`", "")


def aligned(rows):
    """Rows of two cells as lines, the first ones in a column of their own."""
    width = max(len(plain(first)) for first, _ in rows)
    return [f"  {plain(first).ljust(width)}  {second}" for first, second in rows]


def texts_of(words):
    """The names of the circuit, of the stimulus and of the state that a command line reads, as far as it has them."""
    asked, names, words = (words + [""])[0], [], iter(words[1:])
    for word in words:
        if word == "--":
            names += words
        elif word in ("--workers", "--cycles"):
            next(words, None)
        elif not word.startswith("--"):
            names.append(word)
    second = names[1] if len(names) > 1 else None
    return (names + ["-"])[0], second if asked == "run" else None, second if asked in ("save", "resume") else None


def shown(char):
    """A character as it is printed: nothing that moves the cursor or turns the text, and `?` for a byte that isn't UTF-8."""
    if "\udc80" <= char <= "\udcff" or unicodedata.category(char) in ("Cc", "Cf", "Cs", "Co", "Cn", "Zl", "Zp"):
        return "?"
    return char


def columns(char):
    """How many columns of a terminal a character takes."""
    return 0 if unicodedata.combining(char) else 2 if unicodedata.east_asian_width(char) in "WF" else 1


def pictured(line, column, room):
    """A line of bytes and the caret's line below it, cut around the column, which counts bytes, to so many columns."""
    cells, at = [], None
    front = len(line[: column - 1].decode("utf-8", "surrogateescape"))
    width = 0
    for number, char in enumerate(line.decode("utf-8", "surrogateescape")):
        cell = " " * (TAB - width % TAB) if char == "\t" else shown(char)
        if number == front:
            at = len(cells)
        # a wide character stands with an empty cell behind it, a combining one with the cell before
        if cell != char or columns(char) == 1:
            cells += list(cell)
        elif columns(char) == 2:
            cells += [cell, ""]
        elif cells:
            cells[-1] += cell
        width = len(cells)
    at = len(cells) if at is None else min(at, len(cells))
    begin = max(0, min(at - room // 2, len(cells) - room))
    end = begin + room
    text = "".join(cells[begin:end])
    if begin > 0:
        text, at = "..." + text, at + 3
    return text + ("..." if end < len(cells) else ""), " " * (at - begin) + "^"


def advice(stage, kind, line, column):
    """What to change: the row of the table of words where one fits, else the kind's sentence."""
    for words, answer, what in rows_of(section("FAULTS.md", "## What you may meet")):
        place = line[column - 1 :] if answer.endswith("at it") else line if answer.endswith("in its line") else b""
        for word in re.findall(r"`([^`]+)`", words)[: None if "," in words else 1]:
            found = re.search(rb"(?<![\w$-])" + re.escape(word.encode()) + (rb"(?![\w$-])" if word[-1].isalnum() else b""), place)
            if stage == "circuit" and f"`{kind}`" in answer and found and (found.start() == 0 or answer.endswith("in its line")):
                return what
    told = section("FAULTS.md", f"## Of a {stage}") + "\n### "
    found = re.search(rf"^### {kind}\n\n(.*?)\n\n", told, re.M | re.S)
    return found[1].replace("\n", " ") if found else "docs/FAULTS.md tells of faults"


def fault(program, status, words):
    """The lines that show a fault of a circuit, of a stimulus or of a state, where the texts are files."""
    circuit, stimulus, state = texts_of(words)
    if not all(name is None or os.path.isfile(name) for name in (circuit, stimulus, state)):
        return []
    done = subprocess.run([program, *words], stdin=subprocess.DEVNULL, capture_output=True)
    said = re.fullmatch(rb"(circuit|stimulus|state) (\w+) (\d+):(\d+)\n", done.stdout)
    if done.returncode != status or not said:
        return []
    stage, kind, number, column = said[1].decode(), said[2].decode(), int(said[3]), int(said[4])
    name = state if stage == "state" else stimulus if stage == "stimulus" and stimulus else circuit
    lines = Path(name).read_bytes().split(b"\n")
    if stage == "stimulus" and not stimulus:
        # the stimulus' lines are counted from the one behind the first line `%stimulus`
        number += next((at for at, line in enumerate(lines, 1) if line in (b"%stimulus", b"%stimulus\r")), 0)
    line = lines[number - 1] if number <= len(lines) else b""
    margin = str(number)
    room = max(40, shutil.get_terminal_size().columns - len(margin) - 12)
    text, caret = pictured(line.removesuffix(b"\r"), column, room)
    blank = " " * len(margin)
    return [
        f"{name}:{number}:{column}: {kind}",
        f"  {margin} | {text}".rstrip(),
        f"  {blank} | {caret}",
        f"  {blank} = {advice(stage, kind, line, column)}",
    ]


def commands():
    text = section("COMMANDS.md", "## Commands")
    return ["firsim: these are the commands:", *aligned(rows_of(text)), *[line for line in text.splitlines() if line and line[0] != "|"]]


def version(program):
    lines = dict(line.split(" ", 1) for line in (TOP / "prebuilt/SOURCES").read_text().splitlines()) if (TOP / "prebuilt/SOURCES").exists() else {}
    if Path(program).parent.parent == TOP and "sources" in lines:
        return [f"firsim: the prebuilt program of the sources {lines['sources'][:12]}, built with {lines['kit']}"]
    return [f"firsim: the own build {os.path.relpath(program, TOP)}"]


def told(status):
    """What docs/COMMANDS.md says of a status."""
    for number, meaning, what in rows_of(section("COMMANDS.md", "## Statuses")):
        if number == str(status):
            return [f"firsim: status {number}: {meaning}", f"  = {what}"]
    return []


def main():
    program, status, words = sys.argv[1], int(sys.argv[2]), sys.argv[3:]
    if status == 1:
        lines = (version(program) if words[:1] == ["--version"] else []) + commands()
    elif status in (2, 3):
        lines = fault(program, status, words)
    else:
        # (5 is what a reader that has enough, as head, leaves)
        lines = told(status) if status in (4, 6) else []
        if status == 4:
            lines += [f"  {name}: there is no such file" for name in texts_of(words) if name not in (None, "-") and not os.path.exists(name)]
        if status == 6:
            lines += ["  the limits are:", *aligned(rows_of(section("COMMANDS.md", "## Limits")))]
    sys.stdout.buffer.write("".join(line + "\n" for line in lines).encode("utf-8", "surrogateescape"))


main()
