"""Prints a table: time and peak memory of `check` on small texts that ask for much, each at a size and at twice the size, with the ratio
of the times; all under a stack of 8 MB. Then the same of `cut` on circuits whose cones overlap, and of texts that are known to be slow, with what is
known of each.

usage: hostile.py PROGRAM [--check]

With --check each text of `check` that isn't known to be slow is only asked for its answer: the deepest ones under stacks of 8 MB and 4 MB, the
others under 8 MB and within bounds of time and memory that a busy machine keeps as well; the last line is `N passed, M failed`.
"""
import os
import resource
import signal
import subprocess
import sys
import tempfile
import time
import zlib

FRONT = "FIRRTL version 3.0.0\ncircuit M :\n"
MEGABYTE = 1_048_576

# What no text may take, whatever else the machine does.
MOST_SECONDS = 20
MOST_MEGABYTES = 1_000
# So that no text takes the machine's memory.
MOST_ADDRESSES = 4 << 30

ACCEPTED = "ok"
TOO_LARGE = "circuit TooLarge 2:9"


def module(lines, name="M"):
    return f"  module {name} :\n" + "".join(f"    {line}\n" for line in lines)


def fields(count, typ="UInt<1>"):
    return "{ " + ", ".join(f"f{k} : {typ}" for k in range(count)) + " }"


# The deepest texts: 128 brackets, and 128 suffixes or lengths at each.


def deep_reference(depth):
    """A reference of 127 fields and an index, which is such a reference again."""
    way = "a" + ".b" * 127
    typ = "{ b : " * 127 + "UInt<1>[2]" + " }" * 127
    return FRONT + module([f"input a : {typ}", "node n = " + (way + "[") * depth + "0" + "]" * depth])


def deep_type(depth):
    """A bundle with 128 lengths around it, of a bundle with 128 lengths around it, and so on."""
    return FRONT + module(["input a : " + "{ x : " * depth + "UInt<1>" + (" }" + "[1]" * 128) * depth])


def deep_memory(depth):
    """The same type, of which a memory makes the mask."""
    typ = "{ x : " * depth + "UInt<1>" + (" }" + "[1]" * 128) * depth
    lines = [f"data-type => {typ}", "depth => 2", "read-latency => 0", "write-latency => 1", "writer => w", "read-under-write => undefined"]
    return FRONT + module(["input clock : Clock", "mem m :"] + ["  " + line for line in lines] + ["invalidate m.w"])


# Texts that ask for much, of a size.


def nodes_of_bundle(size):
    return FRONT + module([f"input w : {fields(size)}"] + [f"node x{k} = w" for k in range(size)])


def nodes_of_part(size):
    return FRONT + module([f"input w : {{ a : {fields(size)} }}"] + [f"node x{k} = w.a" for k in range(size)])


def nodes_of_instance(size):
    inner = [f"output p{k} : UInt<1>" for k in range(size)] + [f"connect p{k}, UInt<1>(0)" for k in range(size)]
    return FRONT + module(inner, "N") + module(["inst i of N"] + [f"node x{k} = i" for k in range(size)])


def unreached_last_of_part(size):
    return FRONT + module([f"input w : {{ a : {fields(size)} }}"] + [f"node x{k} = w.a.f{size - 1}" for k in range(2 * size)], "N") + module(["skip"])


def connects_of_parts(size):
    part = f"{{ a : {fields(size)} }}"
    return FRONT + module([f"input i : {part}", f"output o : {part}"] + ["connect o.a, i.a"] * size, "N") + module(["skip"])


def connects_of_unlike_parts(size):
    """Parts that differ in their last field alone."""
    parts = [f"{{ a : {fields(size)[:-2]}, {last} : UInt<1> }} }}" for last in ("y", "z")]
    return FRONT + module([f"input i : {parts[0]}", f"output o : {parts[1]}"] + ["connect o.a, i.a"] * size, "N") + module(["skip"])


def connects_of_choices(size):
    return connects_of(size, "mux(c, i, j)")


def connects_of_choices_within_choices(size):
    return connects_of(size, "mux(c, mux(c, i, j), mux(c, j, i))")


def connects_of_deep_choices(size):
    """Choices a hundred deep in one another, each connect with others."""
    return connects_of_each(size, [deep_choice(k) for k in range(size // 30)])


def deep_choice(number):
    chosen = "i"
    for depth in range(100):
        chosen = f"mux(c, {chosen}, {'ij'[number * 2_654_435_761 >> depth % 31 & 1]})"
    return chosen


def connects_of(size, source):
    return connects_of_each(size, [source] * size)


def connects_of_each(size, sources):
    inner = ["input c : UInt<1>"] + [f"input {name} : {fields(size)}" for name in "ij"] + [f"output o : {fields(size)}"]
    return FRONT + module(inner + [f"connect o, {source}" for source in sources], "N") + module(["skip"])


def connects_of_chosen_parts(size):
    inner = ["input c : UInt<1>"] + [f"input {name} : {{ a : {fields(size)} }}" for name in "ij"] + [f"output o : {{ a : {fields(size)} }}"]
    return FRONT + module(inner + ["connect o.a, mux(c, i.a, j.a)"] * size, "N") + module(["skip"])


def port_fields(size):
    """The last field of the data of a memory's port."""
    return writers_of(fields(size), 1, [f"connect m.w0.data.f{size - 1}, UInt<1>(0)"] * size)


def connects_of_ports(size):
    """Ports of instances, which are wide bundles."""
    ports = [f"input p : {fields(size)}", f"output q : {fields(size)}"]
    inner = module(ports + ["connect q, p"], "N")
    return FRONT + inner + module(["inst a of N", "inst b of N"] + ["connect a.p, b.q"] * size, "K") + module(["skip"])


def nodes_of_ports(size):
    """Nodes of the data of one port of a memory that has as many."""
    return memory_of("UInt<8>", [f"reader => r{k}" for k in range(size)], [f"node x{k} = m.r{size - 1}.data" for k in range(size)])


def connects_of_unlike_choices(size):
    """Choices twelve deep between twelve bundles, each of which is the widest in some of its fields: all choices differ."""
    names = [f"i{k}" for k in range(12)]
    widths = [[1 + (field * 7 + number * 5) % 12 for field in range(size // 12)] for number in range(12)]
    inputs = [f"input {name} : {{ " + ", ".join(f"f{k} : UInt<{width}>" for k, width in enumerate(own)) + " }" for name, own in zip(names, widths)]
    output = "output o : { " + ", ".join(f"f{k} : UInt<12>" for k in range(size // 12)) + " }"
    sources = []
    for number in range(size // 4):
        order = sorted(names, key=lambda name: hash_of(f"{number} {name}"))
        chosen = order[0]
        for name in order[1:]:
            chosen = f"mux(c, {chosen}, {name})"
        sources.append(chosen)
    return FRONT + module(["input c : UInt<1>"] + inputs + [output] + [f"connect o, {source}" for source in sources], "N") + module(["skip"])


def hash_of(text):
    return zlib.crc32(text.encode())


def parts_without_leaves(size):
    """The last of the fields of a part, none of which has a leaf."""
    return FRONT + module([f"input w : {{ a : {fields(size, '{ }')} }}"] + [f"invalidate w.a.f{size - 1}"] * (size // 2))


def long_ways(size):
    """Connects of a leaf that stands behind 121 steps for each of so many."""
    typ = "{ x : " * size + "UInt<1>" + (" }" + "[1]" * 120) * size
    return FRONT + module([f"input i : {typ}", f"output o : {typ}"] + ["connect o, i"] * (20 * size))


def refused_at_widths(make, ports):
    """The same texts with a wire behind so many ports whose width nothing tells, so that no stage behind the widths looks at them."""

    def refused(size):
        lines = make(size).split("\n")
        return "\n".join(lines[:3 + ports] + ["    wire z : UInt"] + lines[3 + ports:])

    return refused, f"circuit WidthUnknown {4 + ports}:10"


def unreached_connects(size):
    inner = [f"input i : {fields(size)}", f"output o : {fields(size)}"] + ["connect o, i"] * size
    return FRONT + module(inner, "N") + module(["skip"])


def instances_of_ports(size):
    return FRONT + module([f"input p{k} : UInt<1>" for k in range(size)], "N") + module(
        [line for k in range(size) for line in (f"inst i{k} of N", f"invalidate i{k}")]
    )


def last_field(size):
    return FRONT + module([f"input w : {fields(size)}"] + [f"node x{k} = w.f{size - 1}" for k in range(2 * size)])


def last_of_part(size):
    return FRONT + module([f"input w : {{ a : {fields(size)} }}"] + [f"node x{k} = w.a.f{size - 1}" for k in range(2 * size)])


def unreached_instances(size):
    ports = module([f"input p{k} : UInt<1>" for k in range(size)], "N")
    return FRONT + ports + module([f"inst i{k} of N" for k in range(size)], "K") + module(["skip"])


def readers(size):
    lines = ["data-type => UInt<8>", "depth => 2", "read-latency => 0", "write-latency => 1"]
    lines += [f"reader => r{k}" for k in range(size)] + ["read-under-write => undefined"]
    return FRONT + module(["mem m :"] + ["  " + line for line in lines] + [f"invalidate m.r{k}" for k in range(size)])


def writers(size):
    """Writers of one memory whose elements have as many fields, in a module that main doesn't reach."""
    return writers_of(fields(size), size, ["invalidate m"])


def open_writers(size):
    """The same with fields that have no width."""
    return writers_of(fields(size, "UInt"), size, [])


def writers_of(typ, size, behind):
    return memory_of(typ, [f"writer => w{k}" for k in range(size)], behind)


def memory_of(typ, ports, behind):
    """A memory in a module that main doesn't reach."""
    lines = [f"data-type => {typ}", "depth => 2", "read-latency => 0", "write-latency => 1"] + ports + ["read-under-write => undefined"]
    return FRONT + module(["mem m :"] + ["  " + line for line in lines] + behind, "N") + module(["skip"])


def backward_chain(size):
    wires = [f"wire w{k} : UInt" for k in range(size)]
    chain = [f"connect w{k}, w{k + 1}" for k in range(size - 1)] + [f"connect w{size - 1}, a"]
    return FRONT + module(["input a : UInt<8>"] + wires + chain + ["node n = " + sum_of([f"w{k}" for k in range(size)])])


def diverging_chain(size):
    wires = [f"wire w{k} : UInt" for k in range(size)]
    chain = [f"connect w{k}, add(w{k + 1}, w{k})" for k in range(size - 1)] + [f"connect w{size - 1}, a"]
    return FRONT + module(["input a : UInt<8>"] + wires + chain + ["node n = " + sum_of([f"w{k}" for k in range(size)])])


def wires_in_a_chain(size, forward):
    """Wires without widths, each of which takes the one behind it, with the connects from the chain's beginning or from its end."""
    links = [f"connect w{k}, w{k + 1}" for k in range(size - 1)] + [f"connect w{size - 1}, a"]
    return FRONT + module(["input a : UInt<7>"] + [f"wire w{k} : UInt" for k in range(size)] + (links if forward else links[::-1]))


def registers_in_a_ring(size):
    """Registers without widths that pass on a value of 7 bits."""
    ring = [f"connect r{k}, r{(k + 1) % size}" for k in range(size)]
    return FRONT + module(["input clock : Clock"] + [f"reg r{k} : UInt, clock" for k in range(size)] + ["connect r0, UInt<7>(1)"] + ring)


def sum_of(terms):
    """One expression of all these, in brackets that are few."""
    while len(terms) > 1:
        terms = [f"xor({', '.join(terms[k:k + 2])})" if k + 1 < len(terms) else terms[k] for k in range(0, len(terms), 2)]
    return terms[0]


def module_ring(size):
    rest = "".join(module([f"inst i of R{(k + 1) % size}"], f"R{k}") for k in range(size))
    return FRONT + module(["inst i of R0"]) + rest


def many_indices(size):
    return FRONT + module(["input a : UInt<1>" + "[1]" * 127] + [f"node x{k} = a" + "[0]" * 127 for k in range(size)])


def long_names(size):
    return FRONT + module([f"wire {'n' * 1000}{k} : UInt<1>" for k in range(size)] + [f"invalidate {'n' * 1000}{k}" for k in range(size)])


def infos(size):
    return FRONT + module([f"skip @[Name.scala {k}:20]" for k in range(size)])


def one_bundle(size):
    return FRONT + module([f"input w : {fields(size)}"])


def nested_vectors(size):
    return FRONT + module([f"wire w{k} : UInt<1>{'[1]' * 100}" for k in range(size)] + [f"invalidate w{k}" for k in range(size)])


def one_line(size):
    return FRONT + module(["input a : UInt<1>", "node n = " + sum_of(["a"] * size)])


def dense_statements(size):
    lines = [line for k in range(size) for line in (f"wire w{k} : UInt<8>", f"connect w{k}, a", f"node n{k} = tail(add(w{k}, a), 1)")]
    return FRONT + module(["input a : UInt<8>"] + lines)


def wide_instances(size):
    return FRONT + module([f"input p{k} : UInt<1>" for k in range(200)], "N") + module(
        [line for k in range(size) for line in (f"inst i{k} of N", f"invalidate i{k}")]
    )


def ports_of_long_names(size):
    return FRONT + module([f"input {'n' * 1000}{k} : UInt<1>" for k in range(size)])


def settings_of_long_names(size):
    return ports_of_long_names(size) + "%stimulus\ncycles 1\n" + "".join(f"0 {'n' * 1000}{k} 1\n" for k in range(size))


def arms(size):
    """A chain of so many arms, of which each crosses the conditions before it."""
    lines = ["input a : UInt<16>", "output o : UInt<16>", "connect o, a"]
    for k in range(size):
        lines += [f"{'else ' if k else ''}when eq(a, UInt<16>({k})) :", f"  connect o, UInt<16>({k})"]
    return lines


def reached_arms(size):
    return FRONT + module(arms(size))


def unreached_arms(size):
    return FRONT + module(arms(size), "N") + module(["skip"])


# Texts for `cut`.


def chain_of_nodes(size):
    return ["input clock : Clock", "input a : UInt<1>", "node n0 = a"] + [f"node n{k} = xor(n{k - 1}, a)" for k in range(1, size)]


def registers_under_chain(size):
    """Registers that are set where the last node of a chain is 1."""
    registers = [f"reg r{k} : UInt<1>, clock" for k in range(size)]
    return FRONT + module(chain_of_nodes(size) + registers + [f"when n{size - 1} :"] + [f"  connect r{k}, a" for k in range(size)])


def register_on_each_node(size):
    return FRONT + module(chain_of_nodes(size) + [line for k in range(size) for line in (f"reg r{k} : UInt<1>, clock", f"connect r{k}, n{k}")])


def layers_of_vectors(size):
    """Vectors of 200 elements, one of which is replaced by one that two indices within each other choose."""
    lines = ["input clock : Clock", "input i : UInt<8>", "reg r : UInt<8>[200], clock", "wire v0 : UInt<8>[200]", "connect v0, r"]
    for k in range(1, size):
        before = f"v{k - 1}"
        lines += [f"node d{k} = {before}[i]", f"node e{k} = {before}[d{k}]"]
        lines += [f"wire v{k} : UInt<8>[200]", f"connect v{k}, {before}", f"connect v{k}[e{k}], d{k}"]
    return FRONT + module(lines + [f"connect r, v{size - 1}"])


# Texts with indices that are chosen at run time: what one statement asks of each element of a vector.


def element_to_element(size):
    """An element of a vector of registers is set to one of the same, both by an index of their own."""
    lines = ["input clock : Clock", "input i : UInt<16>", "input j : UInt<16>", f"reg v : UInt<8>[{size}], clock"]
    return FRONT + module(lines + ["connect v[i], v[j]"])


def vector_where_an_element_is_one(size):
    """A whole vector of registers is set where an element of a third one is 1, by an index."""
    lines = ["input clock : Clock", "input i : UInt<16>", f"reg c : UInt<1>[{size}], clock"]
    lines += [f"reg {name} : UInt<8>[{size}], clock" for name in "uv"]
    return FRONT + module(lines + ["when c[i] :", "  connect u, v"])


def wires_to_wires(size):
    """The same with wires in the place of registers."""
    lines = ["input clock : Clock", "input i : UInt<16>", f"reg r : UInt<8>[{size}], clock"] + [f"wire {name} : UInt<8>[{size}]" for name in "vw"]
    return FRONT + module(lines + ["connect v, r", "connect w, r", "connect w[i], v[i]", "connect r, w"])


def layers_in_one_statement(size):
    """Layers of 200 elements as above, without nodes for what the indices choose."""
    lines = ["input clock : Clock", "input i : UInt<8>", "reg r : UInt<8>[200], clock", "wire v0 : UInt<8>[200]", "connect v0, r"]
    for k in range(1, size):
        before = f"v{k - 1}"
        lines += [f"wire v{k} : UInt<8>[200]", f"connect v{k}, {before}", f"connect v{k}[{before}[0]], {before}[{before}[i]]"]
    return FRONT + module(lines + [f"connect r, v{size - 1}"])


def pairs_of_indices(size):
    """Indices within one another, each of the second of two vectors."""
    way = "i"
    for _ in range(size):
        way = f"v[i][{way}]"
    return FRONT + module(["input i : UInt<1>", "input v : UInt<1>[2][2]", "output o : UInt<1>", f"connect o, {way}"])


def reads_by_indices(size):
    """Reads of one vector of 16 elements, each by an index of its own."""
    reads = [f"node x{k} = v[xor(i, UInt<8>({k % 256}))]" for k in range(size)]
    return FRONT + module(["input i : UInt<8>", "input v : UInt<8>[16]"] + reads)


# Texts whose keys have one hash in the maps of the kit, whose seed is the same in each run.

HASH_SEED, HASH_FACTOR, HASH_MASK = 0x243F_6A88_85A3_08D3, 0x9E37_79B9_7F4A_7C15, (1 << 64) - 1
LETTERS = set(b"abcdefghijklmnopqrstuvwxyzABCDEFGHIJKLMNOPQRSTUVWXYZ0123456789_")


def folded(first, second):
    """The product of two numbers of 64 bits, its halves joined: 0 where one of them is 0, whatever the other is."""
    product = first * second
    return product & HASH_MASK ^ product >> 64


def front_of_colliding():
    """24 letters behind which all names of 8 more have the hash 0: the third eight are what the hasher has made of the first two."""
    number = 0
    while True:
        block = f"n{number:015d}".encode()
        first, second = (int.from_bytes(block[at : at + 8], "little") for at in (0, 8))
        made = folded(first ^ HASH_SEED + 32 & HASH_MASK, second ^ HASH_FACTOR).to_bytes(8, "little")
        if LETTERS.issuperset(made):
            return (block + made).decode()
        number += 1


def wires_of_colliding_names(size):
    front = front_of_colliding()
    return FRONT + module([f"wire {front}{k:08d} : UInt<1>" for k in range(size)] + [f"invalidate {front}{k:08d}" for k in range(size)])


def leaves_of_colliding_names(size):
    return wires_of_colliding_names(size) + "%stimulus\ncycles 1\n"


def colliding_lengths(size):
    """Vectors of `UInt<1>` whose lengths have one hash, beside the number of their elements' class."""
    low = folded(HASH_SEED, HASH_FACTOR ^ 8) + 16 & HASH_MASK
    return FRONT + module([f"wire w{k} : UInt<1>[{k + 1 << 64 | low}]" for k in range(size)])


def crowded_numbers(size):
    """So many names, and references to the last of those whose numbers, as keys of a map, fall into one group of it. There are no more of these
    than a map with a group for each nine of them has keys for one group: some 3 times the root of all numbers."""
    groups = 1
    while True:
        crowds = {}
        for number in range(size):
            crowds.setdefault(hash_of_number(number + 12) & groups - 1, []).append(number)
        crowd = max(crowds.values(), key=len)
        if len(crowd) <= 9 * groups:
            break
        groups *= 2
    names = module([f"input p : {{ {', '.join(f'a{k} : UInt<1>' for k in range(size))} }}"], "A")
    return FRONT + names + module([f"wire a{k} : UInt<1>" for k in crowd] + [f"invalidate a{crowd[-1]}"] * (size // 2), "B") + module(["skip"])


def hash_of_number(number):
    """The hash of a number of 32 bits."""
    made = folded(HASH_SEED ^ (number | number << 32), HASH_FACTOR ^ 8)
    return made & 0xFFFF_FFFF ^ made >> 32


# Texts that ask much of the resolution of `Reset`, as soon as one has an AsyncReset: bundles of 3 n Resets, vectors in one another, and
# modules in a row or a ring.


def resets(size):
    return fields(3 * size, "Reset")


def connects_of_resets(size):
    return FRONT + module([f"input i : {resets(size)}", f"output o : {resets(size)}"] + ["connect o, i"] * size, "N") + module(["skip"])


def nodes_of_resets(size):
    return FRONT + module([f"input i : {resets(size)}"] + [f"node x{k} = i" for k in range(size)])


def instances_of_resets(size):
    return FRONT + module([f"input i : {resets(size)}"], "P") + module([f"inst p{k} of P" for k in range(size)], "N") + module(["skip"])


def masks_of_resets(size):
    return writers_of(resets(size), size, ["invalidate m"])


def vectors_of_resets(size):
    wires = [f"wire w{k} : Reset{'[1]' * 127}" for k in range(size)]
    return FRONT + module(wires + [f"connect w{k}, w{k + 1}" for k in range(size - 1)] + [f"invalidate w{size - 1}"])


def modules_of_resets(size, behind_last):
    """Modules that hand a Reset on to one another."""
    inside = [["input r : Reset", f"inst i of R{k + 1}", "connect i.r, r"] for k in range(size - 1)] + [["input r : Reset"] + behind_last]
    return FRONT + module(["input r : Reset", "inst i of R0", "connect i.r, r"]) + "".join(module(lines, f"R{k}") for k, lines in enumerate(inside))


def row_of_resets(size):
    return modules_of_resets(size, [])


def ring_of_resets(size):
    return modules_of_resets(size, ["inst i of R0", "connect i.r, r"])


DEEP = {
    "127 fields and an index, 128 deep": deep_reference(128),
    "128 lengths around a bundle, 128 deep": deep_type(128),
}

# A text as deep, whose stack is only measured.
MASKED = {"a memory of 128 lengths around a bundle, 128 deep": deep_memory(128)}

REFUSED_PARTS, REFUSED_PARTS_AT = refused_at_widths(parts_without_leaves, 1)
REFUSED_WAYS, REFUSED_WAYS_AT = refused_at_widths(long_ways, 2)

ROWS = {
    "n nodes of a bundle of n fields": (nodes_of_bundle, 14_000, TOO_LARGE),
    "n nodes of a part of n fields": (nodes_of_part, 6_500, TOO_LARGE),
    "n nodes of an instance with n ports": (nodes_of_instance, 3_500, TOO_LARGE),
    "n connects of n fields that main doesn't reach": (unreached_connects, 8_000, ACCEPTED),
    "n connects of parts of n fields": (connects_of_parts, 8_000, ACCEPTED),
    "n connects of parts that differ in the last field": (connects_of_unlike_parts, 8_000, "circuit NotEquivalent 6:18"),
    "n connects of choices of n fields": (connects_of_choices, 6_000, ACCEPTED),
    "n connects of choices within choices": (connects_of_choices_within_choices, 5_000, ACCEPTED),
    "n / 30 connects of choices a hundred deep": (connects_of_deep_choices, 3_000, ACCEPTED),
    "n connects of chosen parts of n fields": (connects_of_chosen_parts, 5_000, ACCEPTED),
    "n / 4 connects of choices that all differ": (connects_of_unlike_choices, 4_000, ACCEPTED),
    "n connects of ports of n fields": (connects_of_ports, 8_000, ACCEPTED),
    "n nodes of a port of a memory with n ports": (nodes_of_ports, 8_000, ACCEPTED),
    "n / 2 references to the last of n fields without leaves": (parts_without_leaves, 16_000, ACCEPTED),
    "20 n connects of a leaf behind 121 n steps": (long_ways, 30, ACCEPTED),
    "n / 2 of these references, refused at the widths": (REFUSED_PARTS, 16_000, REFUSED_PARTS_AT),
    "20 n of these connects, refused at the widths": (REFUSED_WAYS, 60, REFUSED_WAYS_AT),
    "n instances of a module with n ports": (instances_of_ports, 500, TOO_LARGE),
    "2 n references to the last of n fields": (last_field, 6_000, TOO_LARGE),
    "2 n references to the last of a part's n fields": (last_of_part, 6_000, TOO_LARGE),
    "2 n of them that main doesn't reach": (unreached_last_of_part, 6_000, ACCEPTED),
    "n connects of the last of a port's n fields": (port_fields, 8_000, ACCEPTED),
    "n instances of n ports that main doesn't reach": (unreached_instances, 10_000, ACCEPTED),
    "n readers of one memory, each invalidated": (readers, 4_000, TOO_LARGE),
    "n writers of one memory of n fields": (writers, 10_000, ACCEPTED),
    "n writers of one memory of n fields without widths": (open_writers, 10_000, ACCEPTED),
    "n operands over a chain that runs backward": (backward_chain, 400, ACCEPTED),
    "n operands over a chain that diverges": (diverging_chain, 400, "circuit WidthOver 5:10"),
    "n wires in a chain, connects from its beginning": (lambda n: wires_in_a_chain(n, True), 16_000, ACCEPTED),
    "n wires in a chain, connects from its end": (lambda n: wires_in_a_chain(n, False), 16_000, ACCEPTED),
    "n registers in a ring": (registers_in_a_ring, 16_000, ACCEPTED),
    "n modules in one ring of instances": (module_ring, 2_000, "circuit InstanceLoop 6:15"),
    "n references with 127 indices each": (many_indices, 1_000, ACCEPTED),
    "n declarations of long names": (long_names, 250, ACCEPTED),
    "n infos": (infos, 15_000, ACCEPTED),
    "one bundle of n fields": (one_bundle, 29_000, TOO_LARGE),
    "n wires of 100 vectors in one another": (nested_vectors, 1_500, ACCEPTED),
    "n operands on one line": (one_line, 65_000, ACCEPTED),
    "n wires, connects and nodes": (dense_statements, 6_000, ACCEPTED),
    "n instances of a module with 200 ports": (wide_instances, 1_000, TOO_LARGE),
    "n ports of main with names of 1,000 letters": (ports_of_long_names, 500, ACCEPTED),
    "n pairs of indices within one another": (pairs_of_indices, 30, ACCEPTED),
    "n reads of one vector by indices of their own": (reads_by_indices, 5_000, ACCEPTED),
    "a chain of n arms": (reached_arms, 1_400, TOO_LARGE),
    "a chain of n arms that main doesn't reach": (unreached_arms, 5_600, ACCEPTED),
    "n wires whose names collide": (wires_of_colliding_names, 5_000, ACCEPTED),
    "n vectors whose lengths collide": (colliding_lengths, 10_000, TOO_LARGE),
    "n / 2 references to one of n names whose numbers crowd": (crowded_numbers, 17_000, ACCEPTED),
    "n connects of 3 n Resets": (connects_of_resets, 10_000, ACCEPTED),
    "n nodes of 3 n Resets": (nodes_of_resets, 10_000, TOO_LARGE),
    "n instances of a module with 3 n Resets": (instances_of_resets, 10_000, ACCEPTED),
    "n masks of 3 n Resets": (masks_of_resets, 10_000, ACCEPTED),
    "n wires of Resets in 127 vectors": (vectors_of_resets, 2_000, ACCEPTED),
    "n modules in a row, each with a Reset": (row_of_resets, 2_000, TOO_LARGE),
    "n modules in one ring, each with a Reset": (ring_of_resets, 2_000, "circuit InstanceLoop 9:15"),
    "an element of n to one of n, by indices": (element_to_element, 20_000, ACCEPTED),
    "n registers where one of n is 1, by an index": (vector_where_an_element_is_one, 10_000, ACCEPTED),
    "n layers of 200 elements, in one statement each": (layers_in_one_statement, 75, ACCEPTED),
}

CHECK, CUT, REFINE = ("check",), ("cut", "--workers", "2"), ("refine", "--workers", "2")

# Only measured: the command, the text, the size, and what is known of it, where it isn't in proportion.
CONES = "each cone is walked once to place its sink"
ARMS = "each arm has the conditions before it, as far as the limit of the size allows"
KNOWN = {
    "n layers of 200 elements that index one another": (CHECK, layers_of_vectors, 75, None),
    "n layers of 200 elements, `cut`": (CUT, layers_of_vectors, 75, None),
    "n registers under an enable behind n nodes, `cut`": (CUT, registers_under_chain, 4_000, CONES),
    "n registers under an enable, `refine`": (REFINE, registers_under_chain, 4_000, CONES),
    "n nodes of a chain with a register each, `cut`": (CUT, register_on_each_node, 4_000, CONES),
    "n nodes of a chain with a register each, `refine`": (REFINE, register_on_each_node, 4_000, CONES),
    "n leaves whose names collide, `vcd` of one": (("vcd", "-", "M"), leaves_of_colliding_names, 5_000, None),
    "n leaves whose names collide, `log`": (("log",), leaves_of_colliding_names, 5_000, None),
    "a chain of n arms that fits": (CHECK, reached_arms, 400, ARMS),
    "n settings of names of 1,000 letters, `run`": (("run",), settings_of_long_names, 250, None),
    "an element of n to one of n, by indices, `cut`": (CUT, element_to_element, 20_000, None),
    "n registers where one of n is 1, `cut`": (CUT, vector_where_an_element_is_one, 10_000, None),
    "n layers of 200 elements, in one statement each, `cut`": (CUT, layers_in_one_statement, 75, None),
    "n wires, one of which is set to one of n, `cut`": (CUT, wires_to_wires, 2_000, CONES),
}


def answer(program, text, stack, words=("check",)):
    """What `check` or another command says of a text under a stack of so many bytes, or the signal that ended it; seconds; and peak memory in MB."""

    def limited():
        resource.setrlimit(resource.RLIMIT_STACK, (stack, resource.getrlimit(resource.RLIMIT_STACK)[1]))
        resource.setrlimit(resource.RLIMIT_AS, (MOST_ADDRESSES, resource.getrlimit(resource.RLIMIT_AS)[1]))

    with tempfile.TemporaryFile() as given:
        given.write(text.encode())
        given.seek(0)
        began = time.perf_counter()
        child = subprocess.Popen([program, *words], stdin=given, stdout=subprocess.PIPE, preexec_fn=limited)
        written = child.stdout.read().decode().strip()
        child.stdout.close()
        _, status, used = os.wait4(child.pid, 0)
        child.returncode = os.waitstatus_to_exitcode(status)
    said = signal.Signals(-child.returncode).name if child.returncode < 0 else written
    return said, time.perf_counter() - began, used.ru_maxrss / 1024


def last_line(written):
    return written.rpartition("\n")[2]


def asked():
    """Each text with what it is, the megabytes of its stack, and the answer that is wanted."""
    for meaning, text in DEEP.items():
        for megabytes in (8, 4):
            yield meaning, text, megabytes, ACCEPTED
    for meaning, (make, size, wanted) in ROWS.items():
        for count in (size, 2 * size):
            yield f"{meaning}, for n = {count:,}", make(count), 8, wanted


def check(program):
    passed = failed = 0
    for meaning, text, megabytes, wanted in asked():
        said, seconds, memory = answer(program, text, megabytes * MEGABYTE)
        if said == wanted and seconds <= MOST_SECONDS and memory <= MOST_MEGABYTES:
            passed += 1
        else:
            failed += 1
            print(f"{meaning}, under a stack of {megabytes} MB: {said} after {seconds:.1f} seconds in {memory:.0f} MB, not {wanted}")
    print(f"{passed} passed, {failed} failed")
    return 1 if failed else 0


def measure(program):
    print(f"{'text':56} {'bytes':>9} {'seconds':>8} {'MB':>7} {'twice the bytes':>15} {'seconds':>8} {'MB':>7} {'ratio':>6}  answer")
    for meaning, text in (DEEP | MASKED).items():
        said, seconds, memory = answer(program, text, 8 * MEGABYTE)
        print(f"{meaning:56} {len(text):9,} {seconds:8.2f} {memory:7.0f} {'':15} {'':8} {'':7} {'':6}  {said}")
    rows = {meaning: (CHECK, make, size, None) for meaning, (make, size, _) in ROWS.items()} | KNOWN
    for meaning, (words, make, size, known) in rows.items():
        small, large = make(size), make(2 * size)
        said, seconds, memory = answer(program, small, 8 * MEGABYTE, words)
        said_of_large, seconds_of_large, memory_of_large = answer(program, large, 8 * MEGABYTE, words)
        said, said_of_large = last_line(said), last_line(said_of_large)
        both = said if said == said_of_large else f"{said}; {said_of_large}"
        print(
            f"{meaning:56} {len(small):9,} {seconds:8.2f} {memory:7.0f} {len(large):15,} {seconds_of_large:8.2f} {memory_of_large:7.0f}"
            f" {seconds_of_large / seconds:6.1f}  {both}{f' (known: {known})' if known else ''}"
        )
    return 0


def main():
    program = os.path.realpath(sys.argv[1])
    return check(program) if sys.argv[2:] == ["--check"] else measure(program)


sys.exit(main())
