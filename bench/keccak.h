#ifndef BENCH_KECCAK_H
#define BENCH_KECCAK_H
#include <stddef.h>
#include <stdint.h>

void baseline_permutation(uint64_t state[25]);
// the first n little-endian 8-byte numbers of SHAKE256 of the two fields, one after the other
void baseline_numbers(const uint8_t *first, size_t first_len, const uint8_t *second, size_t second_len, uint64_t *out, size_t n);

#endif
