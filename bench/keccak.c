// The baseline: Keccak-f[1600] and SHAKE256 from FIPS 202, each round unrolled over 25 local lanes.
#include "keccak.h"

#define ROT(x, r) (((x) << (r)) | ((x) >> (64 - (r))))

static const uint64_t round_constants[24] = {
    0x0000000000000001, 0x0000000000008082, 0x800000000000808A, 0x8000000080008000, 0x000000000000808B, 0x0000000080000001,
    0x8000000080008081, 0x8000000000008009, 0x000000000000008A, 0x0000000000000088, 0x0000000080008009, 0x000000008000000A,
    0x000000008000808B, 0x800000000000008B, 0x8000000000008089, 0x8000000000008003, 0x8000000000008002, 0x8000000000000080,
    0x000000000000800A, 0x800000008000000A, 0x8000000080008081, 0x8000000000008080, 0x0000000080000001, 0x8000000080008008,
};

// chi on one row of five lanes
#define CHI(o, b0, b1, b2, b3, b4)                                                                                              \
    o##0 = b0 ^ (~b1 & b2);                                                                                                     \
    o##1 = b1 ^ (~b2 & b3);                                                                                                     \
    o##2 = b2 ^ (~b3 & b4);                                                                                                     \
    o##3 = b3 ^ (~b4 & b0);                                                                                                     \
    o##4 = b4 ^ (~b0 & b1);

void baseline_permutation(uint64_t s[25]) {
    // lane yx is A[x, y]
    uint64_t a00 = s[0], a01 = s[1], a02 = s[2], a03 = s[3], a04 = s[4];
    uint64_t a10 = s[5], a11 = s[6], a12 = s[7], a13 = s[8], a14 = s[9];
    uint64_t a20 = s[10], a21 = s[11], a22 = s[12], a23 = s[13], a24 = s[14];
    uint64_t a30 = s[15], a31 = s[16], a32 = s[17], a33 = s[18], a34 = s[19];
    uint64_t a40 = s[20], a41 = s[21], a42 = s[22], a43 = s[23], a44 = s[24];
    for (int round = 0; round < 24; round++) {
        uint64_t c0 = a00 ^ a10 ^ a20 ^ a30 ^ a40, c1 = a01 ^ a11 ^ a21 ^ a31 ^ a41, c2 = a02 ^ a12 ^ a22 ^ a32 ^ a42;
        uint64_t c3 = a03 ^ a13 ^ a23 ^ a33 ^ a43, c4 = a04 ^ a14 ^ a24 ^ a34 ^ a44;
        uint64_t d0 = c4 ^ ROT(c1, 1), d1 = c0 ^ ROT(c2, 1), d2 = c1 ^ ROT(c3, 1), d3 = c2 ^ ROT(c4, 1), d4 = c3 ^ ROT(c0, 1);
        uint64_t b00 = a00 ^ d0, b01 = ROT(a11 ^ d1, 44), b02 = ROT(a22 ^ d2, 43), b03 = ROT(a33 ^ d3, 21), b04 = ROT(a44 ^ d4, 14);
        uint64_t b10 = ROT(a03 ^ d3, 28), b11 = ROT(a14 ^ d4, 20), b12 = ROT(a20 ^ d0, 3), b13 = ROT(a31 ^ d1, 45), b14 = ROT(a42 ^ d2, 61);
        uint64_t b20 = ROT(a01 ^ d1, 1), b21 = ROT(a12 ^ d2, 6), b22 = ROT(a23 ^ d3, 25), b23 = ROT(a34 ^ d4, 8), b24 = ROT(a40 ^ d0, 18);
        uint64_t b30 = ROT(a04 ^ d4, 27), b31 = ROT(a10 ^ d0, 36), b32 = ROT(a21 ^ d1, 10), b33 = ROT(a32 ^ d2, 15), b34 = ROT(a43 ^ d3, 56);
        uint64_t b40 = ROT(a02 ^ d2, 62), b41 = ROT(a13 ^ d3, 55), b42 = ROT(a24 ^ d4, 39), b43 = ROT(a30 ^ d0, 41), b44 = ROT(a41 ^ d1, 2);
        CHI(a0, b00, b01, b02, b03, b04)
        CHI(a1, b10, b11, b12, b13, b14)
        CHI(a2, b20, b21, b22, b23, b24)
        CHI(a3, b30, b31, b32, b33, b34)
        CHI(a4, b40, b41, b42, b43, b44)
        a00 ^= round_constants[round];
    }
    s[0] = a00, s[1] = a01, s[2] = a02, s[3] = a03, s[4] = a04;
    s[5] = a10, s[6] = a11, s[7] = a12, s[8] = a13, s[9] = a14;
    s[10] = a20, s[11] = a21, s[12] = a22, s[13] = a23, s[14] = a24;
    s[15] = a30, s[16] = a31, s[17] = a32, s[18] = a33, s[19] = a34;
    s[20] = a40, s[21] = a41, s[22] = a42, s[23] = a43, s[24] = a44;
}

static void absorb(uint64_t state[25], size_t *at, const uint8_t *bytes, size_t n) {
    for (size_t i = 0; i < n; i++) {
        state[*at / 8] ^= (uint64_t)bytes[i] << (*at % 8 * 8);
        if (++*at == 136) {
            baseline_permutation(state);
            *at = 0;
        }
    }
}

void baseline_numbers(const uint8_t *first, size_t first_len, const uint8_t *second, size_t second_len, uint64_t *out, size_t n) {
    uint64_t state[25] = {0};
    size_t at = 0;
    absorb(state, &at, first, first_len);
    absorb(state, &at, second, second_len);
    state[at / 8] ^= (uint64_t)0x1F << (at % 8 * 8);
    state[16] ^= (uint64_t)1 << 63;
    for (size_t i = 0; i < n; i++) {
        if (i % 17 == 0)
            baseline_permutation(state);
        out[i] = state[i % 17];
    }
}
