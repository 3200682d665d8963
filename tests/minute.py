"""Cases of the scripts: ./firsim, which chooses a program and explains its statuses, ./build, ./regress, and those of prebuilt/ and scripts/.

They run on copies of the scripts in a repository of three small crates, whose programs are the real one or a stand-in, with the tools below alone
on the PATH and an empty home. Used by run_cases.py.
"""
import os
import pty
import re
import shutil
import subprocess
import sys
import tempfile
import xml.etree.ElementTree as Tree
from contextlib import contextmanager
from pathlib import Path

TOP = Path(__file__).resolve().parent.parent
TOOLS = (
    "bash env sh awk sed find sort xargs sha256sum cut paste gzip cmp readlink mktemp mkdir mv rm cat chmod cp grep date wc ls dirname tr head tail sleep flock"
).split()
STAND_IN = '#!/bin/sh\necho "{}$*"\nexit ${{STATUS:-0}}\n'
FRONT = "FIRRTL version 3.0.0\ncircuit M :\n  module M :\n    input clock : Clock\n    input a : UInt<1>\n    output o : UInt<1>\n"


class Checkout:
    """A repository of small crates with the scripts of this one."""

    def __init__(self, room):
        self.top, self.bin, self.home = room / "check out", room / "bin", room / "home"
        for folder in (self.top / "docs", self.top / "prebuilt", self.bin, self.home):
            folder.mkdir(parents=True)
        for name in TOOLS:
            (self.bin / name).symlink_to(shutil.which(name))
        (self.bin / "python3").symlink_to(sys.executable)
        for file in ("firsim", "build", "regress", "HANDLES", "docs/FAULTS.md", "docs/COMMANDS.md"):
            shutil.copy2(TOP / file, self.top / file)
        for file in ("choose.sh", "program", "renew", "compare"):
            shutil.copy2(TOP / "prebuilt" / file, self.top / "prebuilt" / file)
        shutil.copytree(TOP / "scripts", self.top / "scripts")
        self.write("crates.txt", "# the crates\nlow: itoa\nfirsim: low\nplain_trace: low\nother: low\n")
        for crate in ("low", "firsim", "plain_trace", "other"):
            self.write(f"crates/{crate}/src/lib.rt", f"//! {crate}\nfn one() {{}}\n")

    def write(self, file, text):
        path = self.top / file
        path.parent.mkdir(parents=True, exist_ok=True)
        path.write_bytes(text if isinstance(text, bytes) else text.encode())
        return path

    def own(self, program):
        """Builds the programs, as it were."""
        for name in ("firsim", "plain_trace"):
            path = self.write(f"crates/{name}/out/{name}", program if isinstance(program, bytes) else STAND_IN.format(program))
            path.chmod(0o755)

    def prebuilt(self, program):
        """Has these programs prebuilt, and no own build."""
        self.own(program)
        done = self.run("prebuilt/renew")
        assert done.returncode == 0, done
        self.without_own()

    def without_own(self):
        for name in ("firsim", "plain_trace"):
            shutil.rmtree(self.top / f"crates/{name}/out")

    def run(self, script, *words, stdin=b"", cwd=None, **env):
        """Runs a script of the checkout from the home, or `firsim` as the PATH finds it."""
        env = {"PATH": str(self.bin), "HOME": str(self.home), "TMPDIR": os.environ.get("TMPDIR", "/tmp"), **env}
        return subprocess.run([script if script == "firsim" else self.top / script, *words], input=stdin, capture_output=True, cwd=cwd or self.home, env=env, timeout=120)

    def firsim(self, *words, **how):
        return self.run("./firsim", *words, **how)

    def explained(self, *words, **how):
        return self.firsim(*words, FIRSIM_EXPLAIN="1", **how)


def same(got, wanted):
    assert got == wanted, f"{got!r}, not {wanted!r}"


def has(text, part):
    assert part in text, f"{part!r} isn't in {text!r}"


def answers(done, stdout, status=0, stderr=b""):
    same((done.stdout, done.returncode, done.stderr), (stdout, status, stderr))


def refused(done, part):
    """Nothing was run: status 70 and a reason."""
    same((done.stdout, done.returncode), (b"", 70))
    has(done.stderr, part)


def choices(checkout, program):
    """Which program ./firsim runs."""

    def prebuilt_anywhere():
        checkout.prebuilt(program)
        (checkout.bin / "firsim").symlink_to(checkout.top / "firsim")
        example = TOP / "examples/gcd"
        done = checkout.run("firsim", "run", f"{example}.fir", f"{example}.stim")
        answers(done, example.with_suffix(".expect").read_bytes())
        again = checkout.firsim("run", f"{example}.fir", "gcd.stim", cwd=example.parent)
        answers(again, done.stdout)
        same(checkout.run("prebuilt/program", "firsim").stdout, f"{checkout.top}/out/firsim\n".encode())

    yield "the prebuilt program runs without a kit, in an empty home, by a link on the PATH", prebuilt_anywhere

    def eight_at_once():
        checkout.prebuilt("prebuilt ")
        shutil.rmtree(checkout.top / "out")
        env = {"PATH": str(checkout.bin), "HOME": str(checkout.home)}
        calls = [subprocess.Popen([checkout.top / "firsim", "x"], stdout=subprocess.PIPE, stderr=subprocess.PIPE, env=env) for _ in range(8)]
        same([call.communicate() for call in calls], [(b"prebuilt x\n", b"")] * 8)
        same(sorted(os.listdir(checkout.top / "out")), ["firsim", "firsim.choice"])

    yield "eight first calls at once unpack one program", eight_at_once

    for name, file, text in (
        ("a changed line", "crates/low/src/lib.rt", "//! low\nfn two() {}\n"),
        ("a new file", "crates/low/specs/Lib.antt", "pub mod Two\n"),
        ("a changed line of crates.txt", "crates.txt", "low: itoa clap\nfirsim: low\nplain_trace: low\n"),
    ):

        def changed(file=file, text=text):
            path = checkout.top / file
            before = path.read_bytes() if path.exists() else None
            answers(checkout.firsim("x"), b"prebuilt x\n")
            checkout.write(file, text)
            # an old time of the file must not hide the change
            os.utime(path, (1, 1))
            for _ in range(2):
                refused(checkout.firsim("x"), b"the Rattle kit, whose command rt builds it from source, isn't on this machine's PATH")
            path.unlink() if before is None else checkout.write(file, before)
            answers(checkout.firsim("x"), b"prebuilt x\n")

        yield f"{name} of the sources runs no old program, and put back the prebuilt one", changed

    def removed():
        path = checkout.top / "crates/firsim/src/lib.rt"
        text = path.read_bytes()
        path.unlink()
        refused(checkout.firsim("x"), b"prebuilt/ holds no program of the sources as they are")
        checkout.write("crates/firsim/src/lib.rt", text)

    yield "a removed file of the sources runs no old program", removed

    def beside():
        checkout.write("crates/other/src/lib.rt", "//! changed\n")
        answers(checkout.firsim("x"), b"prebuilt x\n")

    yield "a change in a crate that the programs don't stand on changes nothing", beside

    def own_first():
        checkout.own("own ")
        answers(checkout.firsim("x"), b"own x\n")
        text = (checkout.top / "crates/low/src/lib.rt").read_bytes()
        checkout.write("crates/low/src/lib.rt", text + b"// more\n")
        refused(checkout.firsim("x"), b"rt")
        checkout.own("own ")
        answers(checkout.firsim("x"), b"own x\n")
        # the sources change and come back: the own build stands for them, by their sum
        checkout.write("crates/low/src/lib.rt", text)
        answers(checkout.firsim("x"), b"prebuilt x\n")
        checkout.write("crates/low/src/lib.rt", text + b"// more\n")
        answers(checkout.firsim("x"), b"own x\n")
        checkout.write("crates/low/src/lib.rt", text)
        checkout.without_own()

    yield "an own build that is newer than the sources comes first, and an older one never runs", own_first

    def damaged():
        file = checkout.top / "prebuilt/firsim.gz"
        text = file.read_bytes()
        checkout.prebuilt("other ")
        other = file.read_bytes()
        checkout.prebuilt("prebuilt ")
        file.write_bytes(other)
        refused(checkout.firsim("x"), b"doesn't hold the program that prebuilt/SOURCES records")
        file.write_bytes(text)
        answers(checkout.firsim("x"), b"prebuilt x\n")

    yield "a prebuilt program other than the recorded one isn't run", damaged

    def foreign():
        checkout.prebuilt(b"\x7fELF of another machine")
        refused(checkout.firsim("x"), b"this machine doesn't run the prebuilt program")
        checkout.prebuilt("prebuilt ")

    yield "a prebuilt program of another machine isn't run", foreign

    def unwritable():
        shutil.rmtree(checkout.top / "out")
        checkout.write("out", "no folder")
        answers(checkout.firsim("x"), b"prebuilt x\n")
        answers(checkout.firsim("x", STATUS="3"), b"prebuilt x\n", 3)
        (checkout.top / "out").unlink()

    yield "where out/ can't be written the prebuilt program runs from a folder of its own", unwritable


def kit(checkout, works, named=False):
    """Puts a stand-in of the kit's command on the PATH, whose programs say `built`."""
    made = "".join(
        f"mkdir -p crates/{name}/out; printf '%s' {STAND_IN.format('built ')!r} > crates/{name}/out/{name}; chmod 755 crates/{name}/out/{name}\n"
        for name in ("firsim", "plain_trace")
    ).replace("\\n", "\n")
    ci = made + 'echo "rt: low proved"; echo "rt: firsim proved"; echo "rt: plain_trace proved"' if works else 'echo "rt: FAILED: low"; exit 1'
    helps = "echo '  rt ci NAME   proves one crate'" if named else "echo '  rt ci   proves all'"
    file = checkout.bin / "rt"
    file.write_text(f'#!/bin/sh\ncase "$1" in\nhelp) {helps} ;;\nversion) echo "kit of these cases" ;;\nci) echo "$@" >> {checkout.home}/called\n{ci}\n;;\nesac\n')
    file.chmod(0o755)


def builds(checkout, program):
    """What happens where neither an own build nor a prebuilt program stands for the sources."""
    checkout.prebuilt("prebuilt ")
    checkout.write("crates/low/src/lib.rt", "//! low, changed\n")

    def fails():
        kit(checkout, works=False)
        refused(checkout.firsim("x"), b"so ./build makes it from source")
        refused(checkout.firsim("x"), b"build: rt: FAILED: low\nbuild: firsim could not be built; see out/build.log")

    yield "a build that fails runs nothing", fails

    for named in (False, True):

        def built(named=named):
            shutil.rmtree(checkout.top / "crates/firsim/out", ignore_errors=True)
            shutil.rmtree(checkout.top / "crates/plain_trace/out", ignore_errors=True)
            (checkout.home / "called").unlink(missing_ok=True)
            kit(checkout, True, named)
            done = checkout.firsim("x")
            same((done.stdout, done.returncode), (b"built x\n", 0))
            has(done.stderr, b"prebuilt/ holds no program of the sources as they are, so ./build makes it from source")
            has(done.stderr, b"build: 3 of 3 crates proved, 100% of the lines")
            same((checkout.home / "called").read_text(), "ci firsim\nci plain_trace\n" if named else "ci\n")
            answers(checkout.firsim("y"), b"built y\n")
            has(checkout.run("build").stdout, b"build: both programs are built of the sources as they are\n")

        yield f"a changed source is built, with a kit that has rt ci{' NAME' * named}, and the reason said", built


    def two_at_once():
        (checkout.home / "called").unlink()
        checkout.write("crates/low/src/lib.rt", "//! low, changed again\n")
        env = {"PATH": str(checkout.bin), "HOME": str(checkout.home)}
        calls = [subprocess.Popen([checkout.top / "firsim", "x"], stdout=subprocess.PIPE, stderr=subprocess.PIPE, env=env) for _ in range(2)]
        same([call.communicate()[0] for call in calls], [b"built x\n"] * 2)
        same((checkout.home / "called").read_text(), "ci firsim\nci plain_trace\n")

    yield "of two calls at once one builds", two_at_once


def comparisons(checkout, program):
    """The gate's comparison of the prebuilt programs with its own build."""
    checkout.write("tests/run", "#!/bin/sh\necho \"cases $*\"\n").chmod(0o755)
    compare = lambda: checkout.run("prebuilt/compare")

    def equal():
        checkout.own("one ")
        same(checkout.run("prebuilt/renew").returncode, 0)
        answers(compare(), b"5 passed, 0 failed\n")

    yield "prebuilt programs that the gate built are the same", equal

    def renewed():
        before = [(checkout.top / "prebuilt" / name).read_bytes() for name in ("firsim.gz", "plain_trace.gz", "SOURCES")]
        same(checkout.run("prebuilt/renew").returncode, 0)
        same([(checkout.top / "prebuilt" / name).read_bytes() for name in ("firsim.gz", "plain_trace.gz", "SOURCES")], before)

    yield "renewing twice writes the same bytes", renewed

    def other_program():
        checkout.own("two ")
        done = compare()
        same(done.returncode, 1)
        has(done.stdout, b"FAILED prebuilt: prebuilt/firsim.gz isn't what the gate built: renew it by: prebuilt/renew\n")
        has(done.stdout, b"3 passed, 2 failed\n")
        checkout.own("one ")

    yield "a prebuilt program that isn't what the gate built fails, with the command that renews it", other_program

    def other_sources():
        path = checkout.top / "crates/low/src/lib.rt"
        text = path.read_text()
        path.write_text("//! another\n")
        done = compare()
        same(done.returncode, 1)
        has(done.stdout, b"prebuilt/SOURCES isn't the sum over the sources as they are: renew it by: prebuilt/renew\n")
        done = checkout.run("prebuilt/renew")
        same(done.returncode, 1)
        has(done.stderr, b"isn't built of the sources as they are")
        path.write_text(text)

    yield "sources that aren't the recorded ones fail, and aren't renewed without a build", other_sources

    def other_kit():
        checkout.own("two ")
        (checkout.bin / "rt").write_text("#!/bin/sh\necho another kit\n")
        (checkout.bin / "rt").chmod(0o755)
        done = compare()
        same(done.returncode, 0)
        has(done.stdout, b"prebuilt: the kit here is 'another kit', and that of the prebuilt programs 'none': their bytes aren't compared\n")
        has(done.stdout, b"cases --prebuilt\n")
        has(done.stdout, b"4 passed, 0 failed\n")

    yield "under another kit the bytes aren't compared, and the cases run on the prebuilt programs", other_kit


def explanations(checkout, program):
    """What ./firsim says on standard error."""
    checkout.own(program)
    home = checkout.home

    def circuit(*lines):
        return (home / "c.fir").write_bytes(FRONT.encode() + b"".join(b"    " + (line if isinstance(line, bytes) else line.encode()) + b"\n" for line in lines))

    def shows(done, answer, status, *lines):
        answers(done, answer, status, "".join(line + "\n" for line in lines).encode())

    def of_circuit():
        circuit("connect o, b")
        sentence = "No declaration of this name stands before it in its block or a block around it: declare it there, or mend the name."
        lines = ["c.fir:7:16: NameUnknown", "  7 |     connect o, b", "    |                ^", f"    = {sentence}"]
        shows(checkout.explained("check", "c.fir"), b"circuit NameUnknown 7:16\n", 2, *lines)
        shows(checkout.explained("cut", "--workers", "2", "c.fir"), b"circuit NameUnknown 7:16\n", 2, *lines)
        shows(checkout.explained("check", "./c.fir"), b"circuit NameUnknown 7:16\n", 2, "./" + lines[0], *lines[1:])

    yield "a circuit's fault is shown with its line, a caret and what to change", of_circuit

    def of_words():
        for line, answer, what in (
            ("o <= a", b"circuit BadSyntax 7:5\n", b"let a newer Chisel write the text"),
            ('assert(clock, a, a, "x")', b"circuit Unsupported 7:5\n", b"scripts/strip_verification"),
            ("wire w : AsyncReset", b"circuit Unsupported 7:14\n", b"resets are read at the clock's edge"),
        ):
            circuit(line)
            done = checkout.explained("check", "c.fir")
            same((done.stdout, done.returncode), (answer, 2))
            has(done.stderr.splitlines()[3], what)

    yield "what Chisel and older tools write has a row of its own", of_words

    def of_stimulus():
        circuit("connect o, a")
        (home / "c.stim").write_text("cycles 2\n\n0 a 2\n")
        front, sentence = (home / "c.fir").read_text(), "    = The input doesn't hold this value: write one that fits its width and kind."
        lines = ["c.stim:3:5: ValueRange", "  3 | 0 a 2", "    |     ^", sentence]
        shows(checkout.explained("run", "c.fir", "c.stim"), b"stimulus ValueRange 3:5\n", 3, *lines)
        (home / "c.txt").write_text(front + "%stimulus\ncycles 2\n\n0 a 2\n")
        lines = ["c.txt:11:5: ValueRange", "  11 | 0 a 2", "     |     ^", " " + sentence]
        shows(checkout.explained("run", "--workers=2", "c.txt"), b"stimulus ValueRange 3:5\n", 3, *lines)

    yield "a stimulus' fault is shown in its file, behind a circuit too", of_stimulus

    def odd_lines():
        circuit(b"connect\to,\tb ; \xff\xfe")
        done = checkout.explained("check", "c.fir")
        same(done.stderr.splitlines()[1:3], [b"  7 |     connect     o,      b ; ??", b"    |                         ^"])
        circuit('node n = UInt<1>("h1") ; äö漢', "connect o, mux(a, b, a)".replace("(", '( @[漢 é] '))
        done = checkout.explained("check", "c.fir")
        text, caret = done.stderr.decode().splitlines()[1:3]
        # the wide character takes two columns
        same((text, caret), ("  8 |     connect o, mux( @[漢 é] a, b, a)", "    |                                ^"))
        circuit("node n = UInt<1>(0) ; \x1b[31m\x07", "node n = a")
        circuit("connect o, b ; \x1b[31m\x07")
        same(checkout.explained("check", "c.fir").stderr.splitlines()[1], b"  7 |     connect o, b ; ?[31m?")

    yield "tabs, wide characters, control characters and bytes that aren't UTF-8 print as columns", odd_lines

    def long_line():
        circuit("connect o, " + "not(" * 100 + "b" + ")" * 100)
        done = checkout.explained("check", "c.fir")
        same(done.stdout, b"circuit NameUnknown 7:416\n")
        text, caret = done.stderr.decode().splitlines()[1:3]
        same((len(text) < 90, text[caret.index("^")], text[6:9], text[-3:]), (True, "b", "...", "..."))

    yield "a long line is cut around the place", long_line

    def behind_the_end():
        (home / "c.fir").write_text("FIRRTL version 3.0.0\ncircuit")
        done = checkout.explained("check", "c.fir")
        same(done.stderr.splitlines()[1:3], [b"  2 | circuit", b"    |        ^"])
        (home / "c.fir").write_text("")
        same(checkout.explained("check", "c.fir").stderr.splitlines()[:3], [b"c.fir:1:1: BadSyntax", b"  1 |", b"    | ^"])

    yield "a fault at the end of the text is shown", behind_the_end

    def of_other_words():
        for words in (["simulate"], [], ["run", "a", "b", "c"], ["make", "0"]):
            done = checkout.explained(*words)
            same((done.stdout, done.returncode), (b"usage\n", 1))
            has(done.stderr, b"  " + b"check [CIRCUIT]".ljust(len("run [--workers P] [--refine] CIRCUIT STIMULUS")) + b"  `ok`, or the circuit's first fault\n")
        for word in ("--help", "-h", "help", "--version"):
            done = checkout.firsim(word)
            same((done.stdout, done.returncode), (b"usage\n", 1))
            has(done.stderr, b"firsim: these are the commands:\n")
            answers(checkout.firsim(word, FIRSIM_EXPLAIN="0"), b"usage\n", 1)
        has(checkout.firsim("--version").stderr, b"firsim: the own build crates/firsim/out/firsim\n")

    yield "words that are no command get the commands; --help and --version in any case", of_other_words

    def of_files():
        done = checkout.explained("check", "nothing.fir")
        same((done.stdout, done.returncode), (b"", 4))
        has(done.stderr, b"nothing.fir: there is no such file\n")

    yield "a file that isn't there is named", of_files

    def silent():
        circuit("connect o, b")
        for env in ({}, {"FIRSIM_EXPLAIN": "0"}):
            answers(checkout.firsim("check", "c.fir", **env), b"circuit NameUnknown 7:16\n", 2)
            answers(checkout.firsim("nothing", **env), b"usage\n", 1)
        text = (home / "c.fir").read_bytes()
        answers(checkout.explained("check", stdin=text), b"circuit NameUnknown 7:16\n", 2)
        circuit("connect o, a")
        answers(checkout.explained("check", "c.fir"), b"ok\n")

    yield "nothing is added off a terminal, to a text from standard input, or to an accepted one", silent

    def terminal():
        circuit("connect o, b")
        here, there = pty.openpty()
        env = {"PATH": str(checkout.bin), "HOME": str(home)}
        done = subprocess.run([checkout.top / "firsim", "check", "c.fir"], stdout=subprocess.PIPE, stderr=there, cwd=home, env=env)
        os.close(there)
        said = os.read(here, 10_000)
        os.close(here)
        same((done.stdout, done.returncode), (b"circuit NameUnknown 7:16\n", 2))
        has(said, b"c.fir:7:16: NameUnknown\r\n")

    yield "on a terminal a fault is explained unasked", terminal

    def without_python():
        (checkout.bin / "python3").unlink()
        done = checkout.explained("check", "c.fir")
        (checkout.bin / "python3").symlink_to(sys.executable)
        same((done.stdout, done.returncode), (b"circuit NameUnknown 7:16\n", 2))
        has(done.stderr, b"python3, which would explain it, isn't on this machine's PATH")

    yield "without python3 the answer comes all the same", without_python

    def no_memory():
        checkout.own("part ")
        done = checkout.explained("run", "c.fir", STATUS="6")
        same((done.stdout, done.returncode), (b"part run c.fir\n", 6))
        has(done.stderr, b"firsim: status 6: out of memory; a prefix may be there\n")
        has(done.stderr, b"  leaves of a run; of the main module's ports; flat size; state words  ")
        answers(checkout.explained("x", STATUS="5"), b"part x\n", 5)

    yield "out of memory is told with the limits", no_memory


def pages(checkout, program):
    """What the pages of docs/ have to hold."""

    def kinds():
        formats, faults = ((TOP / "docs" / name).read_text() for name in ("FORMATS.md", "FAULTS.md"))
        told = dict(zip(("circuit", "stimulus"), faults.split("## Of a stimulus\n")))
        listed = formats[formats.index("## Fault lines") :]
        found = re.findall(r"^\| `(\w+)` \|", listed, re.M)
        same(len(found) > 40, True)
        for kind in found:
            sentences = [each for part in told.values() for each in re.findall(rf"^### {kind}\n\n(.*?)\n\n", part, re.M | re.S)]
            assert sentences and all(each[0] != "`" or each.startswith("`run`") for each in sentences), f"docs/FAULTS.md doesn't say what to change for {kind}"

    yield "docs/FAULTS.md says of each kind of docs/FORMATS.md what to change", kinds

    def commands():
        rows = re.findall(r"^\| `.*$", (TOP / "docs/COMMANDS.md").read_text().split("## Statuses")[0], re.M)
        readme = (TOP / "README.md").read_text()
        same((len(rows) >= 6, [row for row in rows if row not in readme]), (True, []))

    yield "README has the commands of docs/COMMANDS.md", commands


def regressions(checkout, program):
    """./regress."""
    checkout.own(program)
    folder = checkout.home / "cases"
    folder.mkdir()
    put = lambda name, text: (folder / name).write_text(text)
    circuit = FRONT + "    connect o, a\n"
    put("well.fir", circuit)
    put("well.stim", "cycles 2\n1 a 1\n")
    put("well.expect", "cycle o\n0 0\n1 1\n")
    put("several.fir", circuit)
    put("several.a.stim", "cycles 1\n0 a 1\n")
    put("several.a.expect", "cycle o\n0 1\n")
    put("several.b.stim", "cycles 1\n")
    put("several.expect", "cycle o\n0 0\n")
    put("fault.fir", FRONT)
    put("fault.stim", "cycles 1\n")
    put("fault.expect", "circuit NotInitialized 6:12\n")
    regress = lambda *words, **env: checkout.run("regress", *words, **env)

    def well():
        answers(regress("cases", "--jobs", "2", "--workers", "2"), b"4 passed, 0 failed\n")

    yield "regress: circuits with one stimulus, with several, and with a fault that is wanted", well

    def differs():
        put("wrong.fir", circuit)
        put("wrong.stim", "cycles 3\n1 a 1\n")
        put("wrong.expect", "cycle o\n0 0\n1 0\n2 1\n")
        put("short.fir", circuit)
        put("short.stim", "cycles 1\n")
        put("short.expect", "cycle o\n0 0\n1 0\n")
        put("alone.fir", circuit)
        put("lost.fir", circuit)
        put("lost.stim", "cycles 1\n")
        done = regress("cases", "--junit", "report.xml")
        same((done.returncode, done.stdout.decode().splitlines()), (1, [
            "FAILED cases/lost: cases/lost.expect: No such file or directory",
            "FAILED cases/short: line 3: wrote nothing, wanted '1 0' (status 0)",
            "FAILED cases/wrong: line 3: wrote '1 1', wanted '1 0' (status 0)",
            "4 passed, 3 failed",
        ]))
        same(done.stderr, b"regress: cases/alone.fir has no stimulus, so it isn't run\n")
        suite = Tree.parse(checkout.home / "report.xml").getroot()[0]
        same([suite.get(each) for each in ("name", "tests", "failures", "errors")], ["cases", "7", "3", "0"])
        same([each.get("name") for each in suite], ["fault", "lost", "several.a", "several.b", "short", "well", "wrong"])
        same([each.get("name") for each in suite if len(each)], ["lost", "short", "wrong"])
        same(suite[6][0].get("message"), "line 3: wrote '1 1', wanted '1 0' (status 0)")

    yield "regress: the first line that differs, beside what was wanted, and in the JUnit report", differs

    def other_statuses():
        file = checkout.home / "retried"
        program = checkout.home / "stand_in"
        program.write_text(f'#!/bin/sh\ncase "$2" in\n*well.fir) [ -e {file} ] || {{ touch {file}; exit 4; }}; cat cases/well.expect ;;\n*fault.fir) exit 5 ;;\n*) exit 6 ;;\nesac\n')
        program.chmod(0o755)
        (checkout.bin / "touch").symlink_to(shutil.which("touch"))
        for name in ("wrong", "short", "alone", "lost"):
            (folder / f"{name}.fir").unlink()
        done = regress("cases", "--program", "stand_in", "--junit", "report.xml")
        same((done.returncode, done.stdout.decode().splitlines()), (1, [
            "FAILED cases/fault: line 1: wrote nothing, wanted 'circuit NotInitialized 6:12' (status 5)",
            "OUT OF MEMORY cases/several.a: status 6",
            "OUT OF MEMORY cases/several.b: status 6",
            "1 passed, 3 failed",
        ]))
        same(file.exists(), True)
        root = Tree.parse(checkout.home / "report.xml").getroot()
        same([root.get(each) for each in ("tests", "failures", "errors")], ["4", "1", "2"])

    yield "regress: a case that could not read is tried once more, and want of memory told apart", other_statuses

    def other_words():
        for words in ([], ["nowhere"], ["cases", "--jobs", "0"], ["cases", "--workers", "65"], ["."]):
            same(regress(*words).returncode, 2)
        checkout.without_own()
        same(regress("cases").returncode, 70)

    yield "regress: other words are refused, and no program is told", other_words


def strippings(checkout, program):
    """scripts/strip_verification."""
    checkout.own(program)

    def stripped():
        text = FRONT + '    when a :\n      assert(clock, a, a, "x") : n @[A.scala 1:1]\n    assume(clock, a, a, "y")\r\n    cover(clock, a, a, "z")\n    connect o, a\n'
        done = checkout.run("scripts/strip_verification", stdin=text.encode())
        same(done.stdout.decode(), FRONT + "    when a :\n      skip\n    skip\r\n    skip\n    connect o, a\n")
        same(done.stderr.splitlines()[0], b'line 8: assert(clock, a, a, "x") : n @[A.scala 1:1]')
        same(done.stderr.splitlines()[-1], b"strip_verification: 1 assert, 1 assume, 1 cover taken out")
        (checkout.home / "out.fir").write_bytes(done.stdout)
        answers(checkout.firsim("check", "out.fir"), b"ok\n")
        (checkout.home / "in.fir").write_text(FRONT + '    connect o, a\n    printf(clock, a, "x")\n    stop(clock, a, 1)\n')
        same(checkout.run("scripts/strip_verification", "in.fir").stdout, (checkout.home / "in.fir").read_bytes())
        done = checkout.run("scripts/strip_verification", "--prints", "in.fir")
        same(done.stdout.decode(), FRONT + "    connect o, a\n    skip\n    skip\n")

    yield "strip_verification leaves a circuit without assert, assume and cover, and says what it took out", stripped


@contextmanager
def checkout():
    with tempfile.TemporaryDirectory() as room:
        yield Checkout(Path(room))


def faults(program):
    """The name of each case, and why it failed, or none."""
    program = Path(program).read_bytes()
    for group in (choices, builds, comparisons, explanations, pages, regressions, strippings):
        with checkout() as made:
            for name, case in group(made, program):
                try:
                    case()
                    yield name, None
                except (AssertionError, OSError, subprocess.SubprocessError, IndexError) as fault:
                    yield name, f"{type(fault).__name__}: {fault}"


if __name__ == "__main__":
    for name, fault in faults(sys.argv[1]):
        print(f"{'FAILED' if fault else 'passed'} {name}{f': {fault}' if fault else ''}", flush=True)
