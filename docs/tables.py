"""Makes the tables of docs/ and README.md that follow from the sources, each between two marker lines, so that they are written once.

usage: tables.py [--check]  (from anywhere)

- the families of crates (docs/families.txt), with what the first lines of each crate's root file say of it: docs/ARCHITECTURE.md, README.md
- how many crates there are, and the longest chain of crates below the program (crates.txt): docs/ARCHITECTURE.md
- the definitions that the clauses of the top call lead to, file by file, with their lines: docs/AUDIT.md
- the laws that no contract, definition, proof or other part of a document names, each with what it says: docs/PROOFS.md

With --check nothing is written: the last line is `N passed, M failed`, and each table that isn't current is named. Besides, each crate of
crates.txt is in one family; the paths, the crates and the files of definitions that a document names are there; and README.md is short, and
shows its example as it is.
"""
import functools
import itertools
import re
import sys
from pathlib import Path

TOP = Path(__file__).resolve().parent.parent
ROOT_CALL = "run_program"  # the call whose clauses a reader must believe
CUTS = {"IsCutText", "IsRefinedText"}  # what is asked of `cut` and `refine` alone
PROGRAM = "firsim"
PAGES = ["README.md", *sorted(str(page.relative_to(TOP)) for page in (TOP / "docs").glob("*.md"))]


# The workspace.


def crates():
    """The crates of crates.txt in order, each with what it stands on."""
    rows = [row.partition("#")[0].partition(":") for row in (TOP / "crates.txt").read_text().splitlines()]
    listed = {name.split()[0]: used.split() for name, _, used in rows if name.strip()}
    return {name: [each for each in used if each in listed] for name, used in listed.items()}


def root_of(crate):
    found = [path for name in ("lib.rt", "main.rt") if (path := TOP / "crates" / crate / "src" / name).is_file()]
    if not found:
        raise SystemExit(f"tables: docs/families.txt names {crate}, which is no crate")
    return found[0]


def first_lines(crate):
    """The paragraphs in front of a crate's root file, without the sentence that all crates of laws have."""
    said = []
    for line in root_of(crate).read_text().splitlines():
        if not line.startswith("//!"):
            break
        said.append(line[3:].strip())
    text = " ".join(line for line in said if line)
    keeps_laws = r"( Keeps the contracts? of (a law|laws);| Keeps this as its contract\.)?"
    return re.sub(keeps_laws + r" ?[Tt]he functions?( here)? do(es)? nothing(: (their|its) contracts? (are|is) the (laws?|facts))?\.", "", text)


def longest_chain(uses):
    """The longest chain of crates from one that stands on none to the program."""
    chains = {}
    for name in topological(uses):
        below = max((chains[each] for each in uses[name]), key=len, default=[])
        chains[name] = [*below, name]
    return chains[PROGRAM]


def paths_below(uses):
    counts = {}
    for name in topological(uses):
        counts[name] = 1 + sum(counts[each] for each in uses[name])
    return counts[PROGRAM]


def topological(uses):
    order, seen = [], set()

    def visit(name):
        if name not in seen:
            seen.add(name)
            for each in uses[name]:
                visit(each)
            order.append(name)

    for name in uses:
        visit(name)
    return order


def families():
    """The families in order: name, and the lines `key: text` behind it."""
    found = []
    for line in (TOP / "docs/families.txt").read_text().splitlines():
        key, _, text = line.partition(": ")
        if line.startswith("#") or not line.strip() or key == "planned":
            continue
        if key == "family":
            found.append({"family": text})
        else:
            found[-1][key] = (found[-1].get(key, "") + " " + text).strip()
    return found


# The tables.


def table_of_families():
    lines = []
    for number, family in enumerate(families(), 1):
        keeps, _, where = family["keeps"].partition(" | ")
        lines += [f"### {number}. {family['family']}", "", "| | |", "|---|---|", f"| comes in | {family['in']} |", f"| goes out | {family['out']} |"]
        lines += [f"| keeps | {keeps}" + (f" ([{where.rsplit('/', 1)[1]}](../{where}))" if where else "") + " |", "", "| crate | what it is |", "|---|---|"]
        lines += [f"| {name} | {first_lines(name)} |" for name in family["crates"].split()] + [""]
    return lines[:-1]


def table_of_groups():
    lines = ["| crates | comes in | goes out |", "|---|---|---|"]
    for number, family in enumerate(families(), 1):
        lines.append(f"| {number}. {family['family']} | {family['in']} | {family['out']} |")
    return lines


def table_of_chain():
    uses = crates()
    chain = longest_chain(uses)
    return [
        f"{len(uses)} crates stand today. The longest chain to the program has {len(chain)} crates by the lists of `crates.txt`, which name laws too:",
        ", ".join(chain) + f". {paths_below(uses):,} paths lead down from {PROGRAM} through these lists.",
    ]


# What the top call's clauses lead to.

NAME = r"[A-Za-z_][A-Za-z0-9_'-]*"
IMPORT = re.compile(r"^(?:ghost )?(?:pub )?use Rattle\.(\w+)\.specs\.([\w.]+?)(?:\.\{(.*)\}| as (\S+));?$")
HEAD = re.compile(rf"^(?:abbrev pub|unfoldable pub|pub record|pub data|  abbrev pub|  unfoldable pub|  pub record|  pub data) ({NAME})")


def imports_of(lines):
    """Local names with the crate, the module and the name there; an empty name for a module."""
    found = {}
    for line in lines:
        match = IMPORT.match(line)
        if match:
            crate, module, names, alias = match.groups()
            for each in (names or "").split(","):
                name, _, other = each.strip().partition(" as ")
                if name:
                    found[other or name] = (crate, module, name)
            if alias:
                found[alias] = (crate, module, "")
    return found


def items_of(lines):
    """The definitions of a file: the names that each brings, its lines, and how many lines of comments it has."""
    items, comment = [], 0
    for line in lines:
        head = HEAD.match(line)
        if head:
            items.append({"brings": {head[1]}, "lines": [line], "comment": comment})
            comment = 0
        elif line.strip().startswith("--"):
            comment += 1
        elif not line.strip() or re.match(r"(pub )?use |pub mod |module _", line):
            comment = 0
        elif items:
            items[-1]["lines"].append(line)
            items[-1]["comment"] += comment
            comment = 0
            constructor = re.match(rf"^ +(?:pub )?({NAME}) :", line)
            if constructor:
                items[-1]["brings"].add(constructor[1])
    return items


class Spec:
    def __init__(self, path):
        lines = path.read_text().splitlines()
        self.total = sum(1 for line in lines if line.strip())
        front = " ".join(line[2:].strip() for line in itertools.takewhile(lambda line: line.startswith("--"), lines))
        self.says = re.sub(r"(?<=[^.])\. .*", ".", front).replace("|", "")
        self.imports = imports_of(lines)
        self.items = items_of(lines)
        self.by_name = {name: item for item in self.items for name in item["brings"]}


@functools.cache
def spec_of(path):
    return Spec(path)


def names_in(lines):
    return set(re.findall(NAME, " ".join(re.sub(r"--.*|\"[^\"]*\"", "", line) for line in lines)))


def believed(without=()):
    """What the clauses of the top call lead to: the definitions of each specs file, the types of the code, and the words of the toolchain. Names
    may be left out, with all that they alone lead to."""
    specs, reached, types, words, todo, own = {}, {}, set(), set(), [], crates()

    def ask(crate, module, name):
        if crate not in own:
            words.add(f"{crate}.{module}.{name}")
        elif "declared" in module:
            types.add((crate, module.split(".")[-2] if module.endswith(("TheVariants", "TheOpen", "TheViews")) else module.split(".")[-1]))
        elif name and name not in without:
            todo.append((crate, module, name))

    call = next(path for path in sorted(TOP.glob("crates/*/src/*.rt")) if f"pub fn {ROOT_CALL}" in path.read_text())
    lines = call.read_text().splitlines()
    first = next(number for number, line in enumerate(lines) if line.startswith(f"pub fn {ROOT_CALL}"))
    last = next(number for number in range(first, len(lines)) if lines[number] == "{")
    known = imports_of(lines)
    for name in names_in(lines[first:last]) & known.keys():
        ask(*known[name])
    while todo:
        crate, module, name = todo.pop()
        path = TOP / "crates" / crate / "specs" / (module.replace(".", "/") + ".antt")
        if not path.is_file():
            continue  # a list, a box or a shared value, in the form that the toolchain fixes
        spec = specs[path] = spec_of(path)
        item = spec.by_name.get(name)
        if item is None:
            if name in spec.imports:
                ask(*spec.imports[name])
            continue
        if id(item) in reached.setdefault(path, {}):
            continue
        reached[path][id(item)] = item
        for each in names_in(item["lines"]):
            if each in spec.by_name and spec.by_name[each] is not item:
                todo.append((crate, module, each))
            elif each in spec.imports:
                ask(*spec.imports[each])
    return specs, reached, types, words


def table_of_beliefs():
    specs, reached, types, words = believed()
    others = believed(CUTS)[1]
    place = {name: number for number, name in enumerate(name for family in families() for name in family["crates"].split())}
    rows, total, count, for_cut = [], 0, 0, 0
    for path in sorted(reached, key=lambda path: (-place[path.parts[-3]], path.name)):
        items = reached[path].values()
        lines = lines_of(items)
        total, count = total + lines, count + len(items)
        for_cut += lines - lines_of(others.get(path, {}).values())
        who = "" if path in others else "cut, refine"
        link = f"[{path.stem}](../{path.relative_to(TOP)})"
        rows.append(f"| {path.parts[-3]} | {link} | {specs[path].says} | {len(items)} | {lines} | {specs[path].total} | {who} |")
    head = [
        f"{count:,} definitions in {len(rows)} files, {total:,} lines with their comments, {for_cut} of them for `cut` and `refine` alone. They speak of"
        f" {len(types)} types of the",
        f"code as plain data, and of {len(words)} words of the toolchain's own libraries.",
        "",
        "| crate | file | what it says | definitions | their lines | lines of the file | asked by |",
        "|---|---|---|---|---|---|---|",
    ]
    return head + rows


LAW = re.compile(r"((?:^///.*\n)+)pub fn (\w+)\(\)\n(?:    (?:ensures|requires).*\n)+\{", re.M)


def table_of_laws():
    """The laws that nothing names but their own proofs, and no document but this table, in the order of crates.txt."""
    kinds = ("src/**/*.rt", "specs/**/*.antt", "proofs/**/*.antt")
    words = {path: set(re.findall(r"\w+", path.read_text())) for kind in kinds for path in sorted((TOP / "crates").glob(f"*/{kind}"))}
    named = {}
    for path, held in words.items():
        for word in held:
            named.setdefault(word, []).append(path)
    told_of = set()
    for page in PAGES:
        text = re.sub(r"<!-- (\w+): made by.*?<!-- end of \1 -->", "", (TOP / page).read_text(), flags=re.S)
        told_of |= set(re.findall(r"\w+", text))
    rows = ["| crate | law | what it says |", "|---|---|---|"]
    for crate in crates():
        for path in sorted((TOP / "crates" / crate / "src").rglob("*.rt")):
            text = path.read_text()
            for told, law in LAW.findall(text):
                elsewhere = [each for each in named[law] if each != path and law not in each.parts]
                if not elsewhere and law not in told_of and len(re.findall(rf"\b{law}\b", text)) == 1:
                    rows.append(f"| {crate} | `{law}` | {' '.join(line.strip('/ ') for line in told.splitlines())} |")
    return rows


def lines_of(items):
    return sum(len([line for line in item["lines"] if line.strip()]) + item["comment"] for item in items)


# The pages.

TABLES = [
    ("docs/ARCHITECTURE.md", "families", table_of_families),
    ("docs/ARCHITECTURE.md", "chain", table_of_chain),
    ("docs/AUDIT.md", "definitions", table_of_beliefs),
    ("README.md", "groups", table_of_groups),
    ("docs/PROOFS.md", "laws", table_of_laws),
]


def placed(page, name, lines):
    """The page with these lines between the markers of a table."""
    begin, end = f"<!-- {name}: made by docs/tables.py -->", f"<!-- end of {name} -->"
    before, found, rest = page.partition(begin + "\n")
    inside, ended, after = rest.partition(end)
    if not found or not ended:
        raise SystemExit(f"tables: no markers for {name}")
    return before + begin + "\n" + "\n".join(lines) + "\n" + end + after


def faults_of_pages():
    """What doesn't hold of the families and of the pages: a meaning, and what is missing."""
    listed, placed_in = crates(), [name for family in families() for name in family["crates"].split()]
    wrong = sorted(name for name in {*listed, *placed_in} if placed_in.count(name) != 1 or name not in listed)
    yield "each crate of crates.txt is in one family", wrong
    yield "each family keeps a definition that is there", [family["family"] for family in families() if not keeps(family["keeps"])]
    planned = re.search("^planned: (.*)$", (TOP / "docs/families.txt").read_text(), re.M)[1].split()
    for page in PAGES:
        text = re.sub(r"<!-- (\w+): made by.*?<!-- end of \1 -->", "", (TOP / page).read_text(), flags=re.S)
        paths = set(re.findall(r"\b(?:crates|docs|tests|edits|bench|examples|scripts|prebuilt)/[\w./-]*\w", text))
        yield f"the paths that {page} names are there", sorted(path for path in paths if not (TOP / path).exists() and not re.search("NAME|/out", path))
        plain = re.sub(r"```.*?```|`[^`]*`|^    .*?$", "", text, flags=re.S | re.M)
        yield f"the crates that {page} names are there", sorted(set(re.findall(r"\b[a-z]+(?:_[a-z]+)+\b", plain)) - listed.keys() - set(planned))
        files = re.findall(r"[(;] ?([a-z_]+), ((?:[A-Z]\w+(?:, | and )?)+)", text)
        named = [f"{crate}, {name}" for crate, names in files if crate in listed for name in re.findall(r"[A-Z]\w+", names) if not has(crate, name)]
        yield f"the files of definitions that {page} names are there", named


    yield "README.md is short", faults_of_readme()


def faults_of_readme():
    text = (TOP / "README.md").read_text()
    lines = text.splitlines()
    outside = re.sub(r"```.*?```|^(?:\||    |\d\. |#|<!--).*?$", "\n", text, flags=re.S | re.M)
    faults = [f"{len(lines)} lines, more than 150"] if len(lines) > 150 else []
    faults += [f"line {number} has {len(line)} columns, more than 120" for number, line in enumerate(lines, 1) if len(line) > 120]
    faults += [f"a paragraph over 8 lines: {each[:40]}" for each in re.split(r"\n\n+", outside) if each.strip().count("\n") >= 8]
    shown = ("examples/gcd.stim", "examples/gcd.expect")
    return faults + [f"it doesn't show {name}" for name in shown if indented((TOP / name).read_text()) not in text]


def indented(text):
    return "".join(f"    {line}\n" for line in text.splitlines())


def has(crate, name):
    return any((TOP / "crates" / crate / folder / f"{name}.antt").is_file() for folder in ("specs", "proofs"))


def keeps(text):
    """Whether the definition that a family keeps is there, or it says that there is none."""
    meaning, _, path = text.partition(" | ")
    return not path or (TOP / path).is_file() and re.match(r"`(\w+)`", meaning)[1] in Spec(TOP / path).by_name


def main():
    check, failed, passed = sys.argv[1:] == ["--check"], 0, 0
    for page, name, make in TABLES:
        path = TOP / page
        old = path.read_text()
        new = placed(old, name, make())
        if check and new != old:
            failed += 1
            print(f"tables: the table {name} of {page} isn't current: run docs/tables.py")
        elif not check and new != old:
            path.write_text(new)
            print(f"tables: wrote {name} of {page}")
        else:
            passed += 1
    if not check:
        return 0
    for meaning, faults in faults_of_pages():
        passed, failed = passed + (not faults), failed + bool(faults)
        for fault in faults:
            print(f"tables: {meaning}: {fault}")
    print(f"{passed} passed, {failed} failed")
    return 1 if failed else 0


if __name__ == "__main__":
    sys.exit(main())
