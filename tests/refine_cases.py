#!/usr/bin/env python3
"""Cases of `refine` against brute force over all moves, on small circuits made at random; every second one is a circuit in which something moves.

The model knows the cones of its circuits from the way it makes them; it shares no code with the program. Used by run_cases.py; by itself,

usage: refine_cases.py PROGRAM [CIRCUITS [SEED]]
"""
import random
import subprocess
import sys

FRAME = "FIRRTL version 3.0.0\ncircuit M :\n  module M :\n    input clock : Clock\n    input a : UInt<1>\n"


def cut(cones, parts):
    """The cut of the rule: the part of each sink."""
    owners = [None] * len(cones)
    held = [set() for _ in range(parts)]
    for sink in sorted(range(len(cones)), key=lambda k: (-len(cones[k]), k)):
        part = min(range(parts), key=lambda p: (len(held[p] | cones[sink]), p))
        held[part] |= cones[sink]
        owners[sink] = part
    return owners


def costs(cones, parts, owners):
    return [len(set().union(*(cones[k] for k in range(len(cones)) if owners[k] == p))) for p in range(parts)]


def moves(cones, parts, owners):
    """Each move with the greatest cost behind it: (greatest, sink, target)."""
    for sink in range(len(cones)):
        for target in range(parts):
            if target != owners[sink]:
                then = owners[:sink] + [target] + owners[sink + 1:]
                yield max(costs(cones, parts, then)), sink, target


def refined(cones, parts):
    """The owners at the end, and how many moves were made."""
    owners, steps = cut(cones, parts), 0
    while True:
        best = min(moves(cones, parts, owners), default=None)
        if best is None or best[0] >= max(costs(cones, parts, owners)):
            return owners, steps
        owners[best[1]] = best[2]
        steps += 1


def listing(cones, parts):
    owners, _ = refined(cones, parts)
    cost = costs(cones, parts, owners)
    lines = [f"partition {p} sinks {owners.count(p)} assignments {cost[p]}" for p in range(parts)]
    lines.append(f"needed {len(set().union(*cones))} placed {sum(cost)}")
    lines.append(f"greatest {max(cost)}")
    full = cost.index(max(cost))
    for sink in range(len(cones)):
        rows = [m for m in moves(cones, parts, owners) if m[1] == sink]
        if owners[sink] == full and rows:
            greatest, _, target = min(rows)
            lines.append(f"sink {sink} to {target} greatest {greatest}")
    return "".join(line + "\n" for line in lines)


def joined(names):
    text = names[0]
    for name in names[1:]:
        text = f"xor({text}, {name})"
    return text


def circuit(chance):
    """A circuit and the cones of its sinks: watched outputs first, then registers."""
    nodes, behind, body = [], {}, ""
    for number in range(chance.randint(3, 14)):
        name = f"n{number}"
        reads = chance.sample(nodes, chance.randint(1, min(2, len(nodes)))) if nodes and chance.random() < 0.3 else []
        body += f"    node {name} = {joined(reads) if reads else 'not(a)'}\n"
        behind[name] = {name}.union(*(behind[read] for read in reads))
        nodes.append(name)
    ports, connects, outputs, registers = "", "", [], []
    for number in range(chance.randint(2, 9)):
        needs = chance.sample(nodes, chance.randint(0, min(6, len(nodes))))
        cone = set().union(*(behind[need] for need in needs))
        if chance.random() < 0.2:
            name = f"o{number}"
            ports += f"    output {name} : UInt<1>\n"
            outputs.append(cone | {name})
        else:
            name = f"r{number}"
            body += f"    reg {name} : UInt<1>, clock\n"
            registers.append(cone)
        connects += f"    connect {name}, {joined(needs) if needs else 'a'}\n"
    return FRAME + ports + body + connects, outputs + registers


def cases(count=200, seed=1):
    """The name of each case, and the case."""
    chance = random.Random(seed)
    for number in range(count):
        text, cones = circuit(chance)
        parts = chance.choice([1, 2, 2, 3, 4, 7])
        while number % 2 and refined(cones, parts)[1] == 0:
            text, cones = circuit(chance)
            parts = chance.choice([2, 3, 4])
        case = {"words": ["refine", "--workers", str(parts)], "stdin": text, "status": 0, "stdout": listing(cones, parts)}
        yield f"refine: by brute force, circuit {number}", case


def main():
    program = sys.argv[1]
    count = int(sys.argv[2]) if len(sys.argv) > 2 else 200
    seed = int(sys.argv[3]) if len(sys.argv) > 3 else 1
    wrong = 0
    for name, case in cases(count, seed):
        done = subprocess.run([program, *case["words"]], input=case["stdin"], capture_output=True, text=True)
        if (done.returncode, done.stdout) != (case["status"], case["stdout"]):
            wrong += 1
            print(f"FAILED {name}\n{case['stdin']}answered\n{done.stdout}in place of\n{case['stdout']}")
    print(f"{count - wrong} passed, {wrong} failed")
    return 1 if wrong else 0


if __name__ == "__main__":
    sys.exit(main())
