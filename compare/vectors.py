#!/usr/bin/env python3
"""Prints crates/vectors/src/data.rt, as it is before `rt fmt` lays it out: the values that the program `vectors` compares with.

SHAKE256 comes from python's hashlib (OpenSSL's implementation), the permutation of the zero state from the few lines below, which follow
FIPS 202 bit by bit and are first checked against hashlib. The circuits are laid out from document 01. The first 32 bytes of the two published examples of FIPS 202 (the empty message
and the message of 1600 bits, 200 bytes 0xA3) stand here as published and are checked too."""
import hashlib

PUBLISHED = {
    b"": "46b9dd2b0ba88d13233b3feb743eeb243fcd52ea62b81b82b50c27646ed5762f",
    b"\xa3" * 200: "cd8a920ed141aa0407a22d59288652e9d9f1a7ee0c1e7c1ca699424da84a904d",
}

HEAD, END = 0x10000000, 0xB0000000
# constants 250, 0 and 251 at modulus 251; moduli 251, 2, 1 and 253
CIRCUITS = [
    (f"CONSTANT_{c}", [HEAD, 0x200000FB, 0x40000000 | c << 10, 0xA0000001, END]) for c in (250, 0, 251)
] + [(f"MODULUS_{p}", [HEAD, 0x20000000 | p, 0xA0000000, END]) for p in (251, 2, 1, 253)]


def shake(message, size):
    return hashlib.shake_256(message).digest(size)


def keccak_f(bits):
    """FIPS 202, section 3: the state as a string of 1600 bits, bit w(5y + x) + z is A[x, y, z]."""
    a = {(x, y, z): bits[64 * (5 * y + x) + z] for x in range(5) for y in range(5) for z in range(64)}
    offsets, (x, y) = {(0, 0): 0}, (1, 0)
    for t in range(24):
        offsets[x, y] = (t + 1) * (t + 2) // 2
        x, y = y, (2 * x + 3 * y) % 5
    register, rc = [1, 0, 0, 0, 0, 0, 0, 0], []
    for _ in range(255):
        rc.append(register[0])
        r = [0] + register
        for i in (0, 4, 5, 6):
            r[i] ^= r[8]
        register = r[:8]
    for i in range(24):
        c = {(x, z): sum(a[x, y, z] for y in range(5)) % 2 for x in range(5) for z in range(64)}
        a = {(x, y, z): (v + c[(x - 1) % 5, z] + c[(x + 1) % 5, (z - 1) % 64]) % 2 for (x, y, z), v in a.items()}
        a = {(x, y, z): a[x, y, (z - offsets[x, y]) % 64] for (x, y, z) in a}
        a = {(x, y, z): a[(x + 3 * y) % 5, x, z] for (x, y, z) in a}
        a = {(x, y, z): v ^ ((a[(x + 1) % 5, y, z] ^ 1) & a[(x + 2) % 5, y, z]) for (x, y, z), v in a.items()}
        for j in range(7):
            a[0, 0, 2**j - 1] ^= rc[(j + 7 * i) % 255]
    return [a[x, y, z] for y in range(5) for x in range(5) for z in range(64)]


def check():
    for message, begins in PUBLISHED.items():
        assert shake(message, 32).hex() == begins
    block = b"\x1f" + bytes(134) + b"\x80" + bytes(64)
    bits = [block[i // 8] >> i % 8 & 1 for i in range(1600)]
    out = keccak_f(bits)
    packed = bytes(sum(out[8 * i + j] << j for j in range(8)) for i in range(136))
    assert packed == shake(b"", 136)


def array(name, comment, kind, values):
    body = "".join(f"    {v},\n" for v in values)
    return f"\n// {comment}\npub const {name}: [{kind}; {len(values)}] = [\n{body}];\n"


def main():
    check()
    ramp = bytes(i % 256 for i in range(273))
    text = "// What the program compares with. compare/vectors.py printed this file; it says where each value comes from.\n"
    text += array("RAMP", "The message whose byte i is i modulo 256.", "u8", ramp)
    text += array("EMPTY", "SHAKE256 of the empty message, published in FIPS 202's examples.", "u8", shake(b"", 512))
    text += array("BITS_1600", "SHAKE256 of 200 bytes 0xA3, published in FIPS 202's examples.", "u8", shake(b"\xa3" * 200, 512))
    for n in (135, 136, 137, 271, 272, 273):
        text += array(f"RAMP_{n}", f"SHAKE256 of the ramp's first {n} bytes.", "u8", shake(ramp[:n], 32))
    text += array("LONG", "SHAKE256 of the ramp's first 3 bytes, over four blocks and a byte of the fifth.", "u8", shake(ramp[:3], 545))
    for name, words in CIRCUITS:
        text += array(name, "A circuit of document 01's examples, as the bytes of its file.", "u8", b"".join(w.to_bytes(4, "little") for w in words))
    lanes = keccak_f([0] * 1600)
    words = [hex(sum(lanes[64 * i + z] << z for z in range(64))) for i in range(25)]
    text += array("ZERO_STATE", "Keccak-f[1600] of the zero state.", "u64", words)
    print(text, end="")


main()
