"""Asks of each edit, here and in crates/NAME/must-fail, whether it still applies to its crate: each `old:` stands exactly once in its file,
and what each `new:` names of other crates is on the crate's line in crates.txt. Proves nothing.

usage: apply.py [--list] (from anywhere); the last line is `N passed, M failed`

With --list it writes edits/README.md first, which has a line for each edit; without, that page must be as it would be written.
"""
import pathlib
import re
import sys

TOP = pathlib.Path(__file__).resolve().parent.parent


def uses():
    """What each crate uses, by crates.txt."""
    rows = [row.partition("#")[0].partition(":") for row in (TOP / "crates.txt").read_text().splitlines()]
    return {name.split()[0]: set(used.split()) for name, _, used in rows if name.strip()}


def misses(edit, crate, used):
    """Why an edit doesn't apply to a crate, or nothing."""
    folder = TOP / "crates" / crate
    texts, file, old = {}, None, None
    for line in edit.read_text().splitlines():
        word, _, rest = line.partition(": ")
        if word == "file":
            file = folder / rest.strip()
            if not file.is_file():
                return f"there is no {rest.strip()}"
            texts.setdefault(file, file.read_text())
        elif word == "old":
            old = rest
        elif line.startswith("new:") and file and old is not None:
            rest = line.removeprefix("new:").removeprefix(" ")
            if texts[file].count(old) != 1:
                return f"stands {texts[file].count(old)} times: {old}"
            texts[file] = texts[file].replace(old, rest)
            lacking = {name for name in re.findall(r"\b(\w+)::", rest) if name in used} - used[crate] - {crate}
            if lacking:
                return f"its crate doesn't use {', '.join(sorted(lacking))}"
    return None if texts else "it names no file"


HEAD = """# Wrong bodies

An edit is a file of lines `file:`, `old:` and `new:`; its name says what its body does wrong, and the prover must refuse it. Those with
a mark stand in `crates/CRATE/must-fail` and are tried by the gate. The others stand here, in `edits/CRATE`, and are tried by `edits/try CRATE..`
whenever the crate changes. `edits/apply.py --list` writes this page.

| crate | file | wrong body | gate |
|---|---|---|---|
"""


def page(tried):
    """The page with a line for each edit."""
    lines = []
    for crate, edit in tried:
        file = re.search(r"^file: *(.*)$", edit.read_text(), re.M)
        mark = "x" if edit.parent.name == "must-fail" else ""
        lines.append(f"| {crate} | {file[1].strip() if file else ''} | {edit.stem.replace('-', ' ')} | {mark} |\n")
    return HEAD + "".join(lines)


def main():
    passed = failed = 0
    used = uses()
    tried = [(edit.parent.name, edit) for edit in (TOP / "edits").glob("*/*.edit")]
    tried += [(edit.parent.parent.name, edit) for edit in (TOP / "crates").glob("*/must-fail/*.edit")]
    tried.sort(key=lambda pair: (pair[0], pair[1].name))
    told = TOP / "edits/README.md"
    if sys.argv[1:] == ["--list"]:
        told.write_text(page(tried))
    elif not told.is_file() or told.read_text() != page(tried):
        print("edits/README.md isn't the list of the edits: `edits/apply.py --list` writes it")
        failed += 1
    for crate, edit in tried:
        why = misses(edit, crate, used)
        passed, failed = passed + (why is None), failed + (why is not None)
        if why:
            print(f"{crate}/{edit.name}: {why}")
    print(f"{passed} passed, {failed} failed")
    return 1 if failed else 0


if __name__ == "__main__":
    sys.exit(main())
