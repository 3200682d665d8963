"""Prints a table: the time of `check` for texts of several kinds against that of md5sum, and peak memory, in all and a byte of text.

usage: measure.py PROGRAM
"""
import os
import subprocess
import sys
import tempfile
import time

HEAD = b"FIRRTL version 3.0.0\ncircuit M :\n  module M :\n"
DIGITS = "0123456789abcdefghijklmnopqrstuvwxyz"


def filled(line, size):
    return (line * (size // len(line) + 1))[: size // len(line) * len(line)]


def name(number):
    """A short name of its own for each number."""
    text = ""
    while True:
        number, digit = divmod(number, len(DIGITS))
        text = DIGITS[digit] + text
        if number == 0:
            return "n" + text


def dense(size):
    ports = b"    input a : UInt<16>\n    output io : { out : { bits : UInt<16> }[4] }\n"
    return HEAD + ports + filled(b"    connect io.out[3].bits, tail(add(a, UInt<16>(0h1f)), 1)\n", size)


def chain(count):
    """So many nodes in one module, each of which refers to the one before."""
    lines = [f" node {name(k)}={name(k - 1)}\n" if k else " node n0=UInt<1>(0)\n" for k in range(count)]
    return b"FIRRTL version 3.0.0\ncircuit M:\n module M:\n" + "".join(" " + line for line in lines).encode()


def wide(references, leaves):
    """So many references into one bundle of so many leaves."""
    fields = ", ".join(f"f{k} : UInt<1>" for k in range(leaves))
    lines = [f"  input b : {{ {fields} }}\n"] + [f"  node {name(k)}=b.f{k % leaves}\n" for k in range(references)]
    return b"FIRRTL version 3.0.0\ncircuit M:\n module M:\n" + "".join(lines).encode()


def connects(size):
    """As many connects of two names of one letter as fit, in one module."""
    front = b"FIRRTL version 3.0.0\ncircuit M:\n module M:\n  input c : UInt<1>\n  output o : UInt<1>\n"
    return front + filled(b"  connect o,c\n", size - len(front))


def annotated(size):
    """Infos, and annotations before them, behind a module of nothing."""
    half = size // 2
    annotations = b"circuit M :%[[" + filled(b'{"class":"firrtl.transforms.NoDedupAnnotation"},', half) + b"]]\n  module M :\n"
    text = b"FIRRTL version 3.0.0\n" + annotations
    return text + filled(b"    skip @[GCD.scala 15:7, and so on up to a line of eighty bytes or some more 15:7]\n", size - len(text) - 200)


MEGABYTE = 1_048_576
# Each kind at 1, 4 and 16 MB.
KINDS = {
    "comments": lambda size: HEAD + filled(b"; a comment, and so on\n", size - len(HEAD)),
    "infos and annotations": annotated,
    "short connects": connects,
}
TEXTS = {
    "dense statements, 0.25 MB": dense(MEGABYTE // 4),
    "dense statements, 1 MB": dense(MEGABYTE - 200),
    "12,500 declarations and references": chain(12_500),
    "50,000 declarations and references": chain(50_000),
    "10,000 references to one bundle of 1,000 leaves": wide(10_000, 1_000),
    "333,000 short connects": connects(333_000 * 14),
    **{f"{kind}, {size} MB": make(size * MEGABYTE) for kind, make in KINDS.items() for size in (1, 4, 16)},
}


def best_seconds(command, path):
    best = None
    for _ in range(3):
        with open(path, "rb") as text:
            began = time.perf_counter()
            subprocess.run(command, stdin=text, stdout=subprocess.DEVNULL)
            took = time.perf_counter() - began
        best = took if best is None else min(best, took)
    return best


def answer(command, path):
    with open(path, "rb") as text:
        return subprocess.run(command, stdin=text, stdout=subprocess.PIPE).stdout.decode().strip()


def peak_bytes(command, path):
    """The greatest memory of the process, as the system tells it while it runs."""
    peak = 0
    with open(path, "rb") as text:
        process = subprocess.Popen(command, stdin=text, stdout=subprocess.DEVNULL)
        while process.poll() is None:
            try:
                for line in open(f"/proc/{process.pid}/status"):
                    if line.startswith("VmHWM:") and command[0] == os.readlink(f"/proc/{process.pid}/exe"):
                        peak = max(peak, int(line.split()[1]) * 1024)
            except OSError:
                break
        process.wait()
    return peak


def main():
    check = [os.path.realpath(sys.argv[1]), "check"]
    base = peak_bytes(check, "/dev/null")
    print(f"{'text':48} {'bytes':>9} {'check ms':>9} {'md5sum ms':>9} {'ratio':>7} {'MB':>6} {'a byte':>7}  answer")
    with tempfile.TemporaryDirectory() as folder:
        for kind, text in TEXTS.items():
            path = os.path.join(folder, "text")
            with open(path, "wb") as file:
                file.write(text)
            ours, theirs = best_seconds(check, path), best_seconds(["md5sum"], path)
            peak = max(peak_bytes(check, path) for _ in range(3))
            print(f"{kind:48} {len(text):9} {ours * 1000:9.1f} {theirs * 1000:9.1f} {ours / theirs:7.1f} {peak / 1e6:6.0f} {max(0, peak - base) / len(text):7.1f}  {answer(check, path)}")


main()
