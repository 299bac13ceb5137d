#!/usr/bin/env python3
"""Garbles two circuits for two and opens them for every choice of values: inputs a and b modulo 3, the projection of a by 0, 1, 2 -> 2, 4, 1
modulo 5, and the product of a and b, with key length 2; and a bit times itself, with key length 3; round 0x04030211. Written from documents
01 and 02 (orders 3 and 8); SHAKE256 is python's hashlib. The pads, rows and masks must be those that are written in
compare/src/generate/pair_example.rs, where they are worked through by hand and from where `compare pairs` takes what it asks of the engine;
and what is opened must decode to the plain values."""
import hashlib
import pathlib
import re

# offsets modulo 3 and 5; zero keys of a and b: component 0 is the mask
OFFSETS = {3: [1, 2], 5: [1, 3]}
A, B = [2, 1], [1, 0]
TABLE = [2, 4, 1]
ROUND = 0x04030211
# wire numbers
PROJECTION, PRODUCT = 2, 3
# of the other circuit: offset, the bit's zero key, the square's wire number
BIT_OFFSET, BIT, SQUARE = [1, 1, 0], [1, 0, 0], 1


def pad(modulus, wire, component, key, q):
    """The garbler is the only sender, and the receiver, 0."""
    taken = b"ROWPAD" + ROUND.to_bytes(4, "little") + bytes([modulus]) + wire.to_bytes(4, "little") + bytes([component, 0]) + bytes(key)
    squeezed = hashlib.shake_256(taken).digest(8 * len(key))
    return [int.from_bytes(squeezed[8 * i : 8 * i + 8], "little") % q for i in range(len(key))]


def plus(p, x, factor, y):
    return [(i + factor * j) % p for i, j in zip(x, y)]


def key_of(zero, value, p):
    return plus(p, zero, value, OFFSETS[p])


def pads(wire, component, zero, q):
    """Those of external values 0, 1, 2 of a wire modulo 3: the value is the external value less the mask."""
    return [pad(3, wire, component, key_of(zero, external - zero[0], 3), q) for external in range(3)]


def projection():
    """Row α is k_z + T(α − m_a)·D + pad, and k_z makes row 0 all zero."""
    row_pads = pads(PROJECTION, 0, A, 5)
    images = [TABLE[(alpha - A[0]) % 3] for alpha in range(3)]
    zero = [(-images[0] * d - x) % 5 for d, x in zip(OFFSETS[5], row_pads[0])]
    rows = [plus(5, key_of(zero, images[alpha], 5), 1, row_pads[alpha]) for alpha in range(3)]
    return row_pads, zero, rows


def halves():
    """The first half takes a's value v to −m_b·v, the second has the message k″ − β·k_a under b's key for the external value β."""
    first_pads, second_pads = pads(PRODUCT, 0, A, 3), pads(PRODUCT, 1, B, 3)
    images = [-B[0] * (alpha - A[0]) % 3 for alpha in range(3)]
    first = [(-images[0] * d - x) % 3 for d, x in zip(OFFSETS[3], first_pads[0])]
    second = [-x % 3 for x in second_pads[0]]
    rows = [plus(3, key_of(first, images[alpha], 3), 1, first_pads[alpha]) for alpha in range(3)]
    rows += [plus(3, plus(3, second, -beta, A), 1, second_pads[beta]) for beta in range(3)]
    return first_pads + second_pads, plus(3, first, 1, second), rows


def bit_halves():
    """The same of a bit times itself, whose second half is under the same keys; without the rows that are all zero."""
    keys = [plus(2, BIT, external - BIT[0], BIT_OFFSET) for external in range(2)]
    first_pads, second_pads = [[pad(2, SQUARE, component, key, 2) for key in keys] for component in range(2)]
    images = [-BIT[0] * (alpha - BIT[0]) for alpha in range(2)]
    first = plus(2, [-x for x in first_pads[0]], -images[0], BIT_OFFSET)
    second = [-x % 2 for x in second_pads[0]]
    rows = [plus(2, plus(2, first, images[1], BIT_OFFSET), 1, first_pads[1]), plus(2, plus(2, second, -1, BIT), 1, second_pads[1])]
    return first_pads + second_pads, plus(2, first, 1, second), rows


def opened(rows, wire, component, key, q):
    """The row that component 0 of the key names, less its pad; row 0 is not written."""
    row = [0, 0] if key[0] == 0 else rows[key[0] - 1]
    return plus(q, row, -1, pad(3, wire, component, key, q))


passed = failed = 0


def check(what, holds):
    global passed, failed
    passed, failed = passed + holds, failed + (not holds)
    if not holds:
        print("not so:", what)


project_pads, project_zero, project_rows = projection()
product_pads, product_zero, product_rows = halves()
bit_pads, bit_zero, bit_rows = bit_halves()
for start in (project_rows, product_rows, product_rows[3:]):
    check("row 0 is all zero", start[0] == [0, 0])
written = {
    "PADS": sum(project_pads + product_pads, []),
    "ROWS": sum(project_rows[1:] + product_rows[1:3] + product_rows[4:], []),
    "MASKS": [project_zero[0], product_zero[0]],
    "BIT_PADS": sum(bit_pads, []),
    "BIT_ROWS": sum(bit_rows, []),
    "BIT_MASKS": [bit_zero[0]],
}
text = (pathlib.Path(__file__).parent / "src/generate/pair_example.rs").read_text(encoding="utf-8")
for name, numbers in written.items():
    print(name, numbers)
    found = re.search(rf"^pub const {name}: .*?= \[(.*?)\];$", text, re.M | re.S).group(1)
    found = re.sub(r"//.*", "", found)
    check(f"{name} as in pair_example.rs", [int(number) for number in re.findall(r"\d+", found)] == numbers)
for a in range(3):
    for b in range(3):
        key_a, key_b = key_of(A, a, 3), key_of(B, b, 3)
        z = opened(project_rows[1:], PROJECTION, 0, key_a, 5)
        check(f"projection of {a}", z == key_of(project_zero, TABLE[a], 5) and (z[0] - project_zero[0]) % 5 == TABLE[a])
        sum_of_halves = plus(3, opened(product_rows[1:3], PRODUCT, 0, key_a, 3), 1, opened(product_rows[4:], PRODUCT, 1, key_b, 3))
        z = plus(3, sum_of_halves, key_b[0], key_a)
        check(f"product of {a} and {b}", z == key_of(product_zero, a * b, 3) and (z[0] - product_zero[0]) % 3 == a * b % 3)
for bit in range(2):
    key = plus(2, BIT, bit, BIT_OFFSET)
    z = [0, 0, 0] if key[0] == 0 else plus(2, plus(2, bit_rows[0], 1, bit_rows[1]), 1, key)
    for component in range(2):
        z = plus(2, z, -1, pad(2, SQUARE, component, key, 2))
    check(f"{bit} times itself", z == plus(2, bit_zero, bit, BIT_OFFSET) and (z[0] - bit_zero[0]) % 2 == bit)
print(f"{passed} passed, {failed} failed")
raise SystemExit(failed > 0)
