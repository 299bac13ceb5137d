#!/usr/bin/env python3
"""Writes a circuit file from a readable source.

    samples/build.py SOURCE FILE

A line of the source names a wire and says how it is made, in this order: inputs, gates, outputs.

    input NAME party P modulus M
    add NAME A B                       multiply NAME A B
    scale NAME A by C
    project NAME from A modulus M table ENTRIES
    select NAME bit W A B              A where W is 0, B where it is 1
    output NAME                        every party reads it
    output NAME for P ...              the parties P ... alone read it
    bundle R LINE                      LINE for each of the first R primes, ascending, with the prime for every % in it

ENTRIES are the images of 0, 1, ... in turn; V*N stands for N times V, and `same` for every number's own. `#` begins a comment.

What a circuit may be is the engine's reader's to judge: here only a name that is not known, a name taken twice, a table of another length
than its wire's modulus, a bundle of fewer than 2 or more than 10 primes, an output for a party above 7 or twice for the same one and a number
too wide for its bits are errors. --wires prints the wires' numbers and names.
"""
import struct
import sys

HEAD, INPUT, ADD, SCALE, MULTIPLY, PROJECT, ENTRY, SELECT, BRANCHES, OUTPUT, END = range(1, 12)
PRIMES = [2, 3, 5, 7, 11, 13, 17, 19, 23, 29]
PARTIES = 8


def bits(number, width):
    number = int(number)
    if not 0 <= number < 1 << width:
        raise ValueError(f"{number} is too wide for {width} bits")
    return number


def word(kind, fields=0):
    return kind << 28 | fields


class Circuit:
    def __init__(self):
        self.words = [word(HEAD)]
        self.names = []
        self.moduli = []

    def wire(self, name):
        if name not in self.names:
            raise ValueError(f"no wire is called {name}")
        return self.names.index(name)

    def modulus(self, name):
        return self.moduli[self.wire(name)]

    def pair(self, a, b):
        return bits(self.wire(a), 10) << 10 | bits(self.wire(b), 10)

    def make(self, name, modulus, words):
        if name in self.names:
            raise ValueError(f"two wires are called {name}")
        self.names.append(name)
        self.moduli.append(int(modulus))
        self.words += words

    def input(self, name, party, modulus):
        self.make(name, modulus, [word(INPUT, bits(party, 8) << 16 | bits(modulus, 8))])

    def pairwise(self, kind, name, a, b):
        self.make(name, self.modulus(b), [word(kind, self.pair(a, b))])

    def scale(self, name, a, constant):
        self.make(name, self.modulus(a), [word(SCALE, bits(constant, 8) << 10 | bits(self.wire(a), 10))])

    def project(self, name, a, modulus, table):
        if len(table) != self.modulus(a):
            raise ValueError(f"a table of {len(table)} entries for a wire of modulus {self.modulus(a)}")
        first = word(PROJECT, bits(modulus, 8) << 10 | bits(self.wire(a), 10))
        self.make(name, modulus, [first] + [word(ENTRY, bits(image, 8)) for image in table])

    def select(self, name, bit, a, b):
        self.make(name, self.modulus(b), [word(SELECT, bits(self.wire(bit), 10)), word(BRANCHES, self.pair(a, b))])

    def output(self, name, readers):
        self.words.append(word(OUTPUT, named(readers) << 10 | bits(self.wire(name), 10)))

    def file(self):
        words = self.words + [word(END)]
        return struct.pack(f"<{len(words)}I", *words)


def table(entries, modulus):
    if entries == ["same"]:
        return list(range(modulus))
    images = []
    for entry in entries:
        image, _, times = entry.partition("*")
        images += [int(image)] * int(times or 1)
    return images


def named(readers):
    """A bit for each party that reads an output; none where nobody is named, which is everybody."""
    mask = 0
    for reader in map(int, readers):
        if not 0 <= reader < PARTIES or mask >> reader & 1:
            raise ValueError(f"party {reader} is none of 0 to {PARTIES - 1}, or is named twice")
        mask |= 1 << reader
    return mask


def first_primes(count):
    if not 2 <= count <= len(PRIMES):
        raise ValueError(f"a bundle of {count} primes")
    return PRIMES[:count]


def take(circuit, line):
    match line.split("#")[0].split():
        case []:
            pass
        case ["bundle", count, *each]:
            for prime in first_primes(int(count)):
                take(circuit, " ".join(each).replace("%", str(prime)))
        case ["input", name, "party", party, "modulus", modulus]:
            circuit.input(name, party, modulus)
        case ["add", name, a, b]:
            circuit.pairwise(ADD, name, a, b)
        case ["multiply", name, a, b]:
            circuit.pairwise(MULTIPLY, name, a, b)
        case ["scale", name, a, "by", constant]:
            circuit.scale(name, a, constant)
        case ["project", name, "from", a, "modulus", modulus, "table", *entries]:
            circuit.project(name, a, modulus, table(entries, circuit.modulus(a)))
        case ["select", name, "bit", bit, a, b]:
            circuit.select(name, bit, a, b)
        case ["output", name]:
            circuit.output(name, [])
        case ["output", name, "for", reader, *others]:
            circuit.output(name, [reader, *others])
        case _:
            raise ValueError("not a line of this form")


def read_source(path):
    circuit = Circuit()
    with open(path, encoding="utf-8") as source:
        for number, line in enumerate(source, 1):
            try:
                take(circuit, line)
            except ValueError as error:
                sys.exit(f"{path}:{number}: {error}")
    return circuit


def main(arguments):
    if len(arguments) != 2:
        sys.exit(__doc__)
    if arguments[0] == "--wires":
        for number, name in enumerate(read_source(arguments[1]).names):
            print(number, name)
        return
    content = read_source(arguments[0]).file()
    with open(arguments[1], "wb") as file:
        file.write(content)


if __name__ == "__main__":
    main(sys.argv[1:])
