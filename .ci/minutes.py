"""Counts the processor minutes of a gate apart, while it runs: proofs, tests, edits and programs.

usage: minutes.py PID FILE

It looks twice a second at the processes below PID, and writes into FILE a line for each kind with its processor minutes, and behind them a
line for each crate, with tabs: the kind, the crate, the processor seconds, and the peak memory of its largest process in KB. It ends
when it is told to. What a process takes behind the last look at it is missed, half a second of each at most.
"""
import os
import pathlib
import re
import signal
import sys
import time

TICKS = os.sysconf("SC_CLK_TCK")
PAGE = os.sysconf("SC_PAGE_SIZE") // 1024
KINDS = ("proofs", "tests", "edits", "programs")


def processes():
    """The parent, the processor seconds, the beginning and the memory of each process."""
    found = {}
    for name in os.listdir("/proc"):
        if name.isdigit():
            try:
                words = pathlib.Path(f"/proc/{name}/stat").read_text().rpartition(")")[2].split()
            except OSError:
                continue
            found[int(name)] = (int(words[1]), (int(words[11]) + int(words[12])) / TICKS, int(words[19]), int(words[21]) * PAGE)
    return found


def kind_of(pid):
    """What a process is for, and its crate; or none where it is no prover's."""
    try:
        words = pathlib.Path(f"/proc/{pid}/cmdline").read_bytes().split(b"\0")
        where = os.readlink(f"/proc/{pid}/cwd")
    except OSError:
        return None
    if b"--crate-name" not in words[:-1]:
        return None
    crate = words[words.index(b"--crate-name") + 1].decode(errors="replace")
    if re.search(r"/rt-edit", where):
        return "edits", crate
    if b"--crate-checked" in words:
        return "programs", crate
    return "tests" if b"--test" in words else "proofs", crate


def main():
    top, file = int(sys.argv[1]), sys.argv[2]
    kinds, taken, peaks = {}, {}, {}
    ended = []
    signal.signal(signal.SIGTERM, lambda *_: ended.append(True))
    while not ended:
        all_of = processes()
        ours = {top}
        grown = True
        while grown:
            more = {pid for pid, row in all_of.items() if row[0] in ours and pid not in ours}
            ours |= more
            grown = bool(more)
        for pid in ours & set(all_of):
            _, spent, began, memory = all_of[pid]
            key = pid, began
            if key not in kinds:
                kind = kind_of(pid)
                if kind is None:
                    continue  # it may yet become a prover
                kinds[key] = kind
            taken[key] = spent
            peaks[kinds[key]] = max(peaks.get(kinds[key], 0), memory)
        time.sleep(0.5)
    sums = {}
    for key, spent in taken.items():
        sums[kinds[key]] = sums.get(kinds[key], 0.0) + spent
    with open(file, "w") as out:
        for kind in KINDS:
            print(f"{kind} {sum(spent for row, spent in sums.items() if row[0] == kind) / 60:.1f}", file=out)
        for (kind, crate), spent in sorted(sums.items(), key=lambda pair: -pair[1]):
            print(f"{kind}\t{crate}\t{spent:.1f}\t{peaks[kind, crate]}", file=out)


main()
