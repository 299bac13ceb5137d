#!/usr/bin/env python3
"""Prints the two rows of the circuit in crates/examples/specs/Row.antt, for both receivers: a bit projected to 7 and 200 modulo 251, two
parties, key length 1, round 0x04030201. Written from documents 01 and 02 (order 3); SHAKE256 is python's hashlib. Row 0 must be the one that
is written there, which the prover computes from the definitions."""
import hashlib
import pathlib
import re

# of each party: offsets modulo 2 and 251; zero key and mask share of the bit; zero key and mask share of its image
CONTRIBUTIONS = [[1, 100, 1, 0, 33, 17], [1, 9, 0, 1, 250, 90]]
IMAGES = [7, 200]
ROUND = 0x04030201


def pad(modulus, wire, component, receiver, key, q):
    taken = b"ROWPAD" + ROUND.to_bytes(4, "little") + bytes([modulus]) + wire.to_bytes(4, "little") + bytes([component, receiver, key])
    return int.from_bytes(hashlib.shake_256(taken).digest(8), "little") % q


def row(alpha):
    mask_of_bit = sum(c[3] for c in CONTRIBUTIONS) % 2
    mask_of_image = sum(c[5] for c in CONTRIBUTIONS) % 251
    keys = [(c[2] + alpha * c[0]) % 2 for c in CONTRIBUTIONS]
    entries = []
    for receiver, c in enumerate(CONTRIBUTIONS):
        message = c[4] + (IMAGES[(alpha - mask_of_bit) % 2] + mask_of_image) * c[1]
        entries.append((message + sum(pad(2, 1, 0, receiver, key, 251) for key in keys)) % 251)
    return entries


print(row(0), row(1))
text = (pathlib.Path(__file__).parent.parent / "crates/examples/specs/Row.antt").read_text(encoding="utf-8")
written = [int(byte) for byte in re.search(r"^computed = (.*) ∷ \[\]$", text, re.M).group(1).split(" ∷ ")]
same = written == row(0)
print(f"{int(same)} passed, {int(not same)} failed")
raise SystemExit(not same)
