/*
 * What the five calls of bundles answer, from C: splitting and joining over all integers of small bundles and at the edges of large ones,
 * the words of the parts, circuits with a part in them, and each refusal, where a call has several faults the first that is due. A refused
 * call must leave every byte and number as it was. Prints what is not so; the exit status is 0 where there is nothing to print.
 */
#include "lupiknam.h"
#include <stdio.h>
#include <string.h>

enum { MOST = 10, MOST_WIRES = 1024, MOST_PART = 139, FILL = 0x55 };

static const uint8_t primes[MOST] = {2, 3, 5, 7, 11, 13, 17, 19, 23, 29};

/* Of the first 0, 1, 2, ... primes. */
static const uint64_t products[MOST + 1] = {1, 2, 6, 30, 210, 2310, 30030, 510510, 9699690, 223092870, 6469693230};

static int failed = 0;

static void check(int holds, const char *what, uint32_t r)
{
    if (holds)
        return;
    printf("failed: %s, r = %u\n", what, (unsigned)r);
    failed = 1;
}

static int answers(lupiknam_answer answer, uint32_t number)
{
    if (answer.number != number || answer.place != 0)
        printf("%u at %zu where %u at 0 is due\n", (unsigned)answer.number, answer.place, (unsigned)number);
    return answer.number == number && answer.place == 0;
}

static int all_fill(const uint8_t *from, size_t length)
{
    while (length > 0)
        if (from[--length] != FILL)
            return 0;
    return 1;
}

/* ---- splitting and joining */

static void there_and_back(uint32_t r, uint64_t integer)
{
    uint8_t residues[MOST + 1];
    uint64_t back = FILL;
    memset(residues, FILL, sizeof residues);
    check(answers(lupiknam_bundle_split(r, integer, residues, r), 0), "splitting", r);
    for (uint32_t i = 0; i < r; i++)
        check(residues[i] == integer % primes[i], "a residue", r);
    check(all_fill(residues + r, sizeof residues - r), "a byte past the residues", r);
    check(answers(lupiknam_bundle_join(r, residues, r, &back), 0) && back == integer, "joined again", r);
}

/* Every integer where they are few; else the lowest, the highest, those about the powers of two and a walk by a step that is prime to the
   product. */
static void all_or_some(uint32_t r)
{
    const uint64_t product = products[r];
    if (r <= 6)
        for (uint64_t integer = 0; integer < product; integer++)
            there_and_back(r, integer);
    for (uint64_t i = 0; i < 6; i++) {
        there_and_back(r, i);
        there_and_back(r, product - 1 - i);
    }
    for (uint64_t power = 2; power + 1 < product; power *= 2)
        for (uint64_t integer = power - 1; integer <= power + 1; integer++)
            there_and_back(r, integer);
    for (uint64_t i = 0; i < 1000; i++)
        there_and_back(r, i * 6700417 % product);
}

/* A split that is refused; the buffer is longer than it is said to be, so that a byte written shows. */
static void no_split(const char *what, uint32_t r, uint64_t integer, size_t length, uint32_t refusal)
{
    uint8_t residues[64];
    memset(residues, FILL, sizeof residues);
    check(answers(lupiknam_bundle_split(r, integer, length ? residues : NULL, length), refusal) && all_fill(residues, sizeof residues),
        what, r);
}

static void no_join(const char *what, uint32_t r, const uint8_t *residues, size_t length, uint32_t refusal)
{
    uint64_t integer = FILL;
    check(answers(lupiknam_bundle_join(r, length ? residues : NULL, length, &integer), refusal) && integer == FILL, what, r);
}

/* One residue at its prime or above. */
static void large_residues(uint32_t r)
{
    uint8_t residues[MOST] = {0};
    for (uint32_t i = 0; i < r; i++)
        for (unsigned large = primes[i]; large < 256; large += large == primes[i] ? 1 : 17) {
            residues[i] = (uint8_t)large;
            no_join("a residue not below its prime", r, residues, r, 24);
            residues[i] = (uint8_t)(primes[i] - 1);
        }
}

static void split_and_join_edges(uint32_t r)
{
    static const uint8_t large[64] = {[0] = 2};
    no_split("the product", r, products[r], r, 24);
    no_split("above the product", r, products[r] + 1, r, 24);
    no_split("the product and 2^32", r, products[r] + (UINT64_C(1) << 32), r, 24);
    no_split("the largest integer", r, UINT64_MAX, r, 24);
    no_split("a byte too few, and the product", r, products[r], r - 1, 14);
    no_split("a byte too many", r, 0, r + 1, 14);
    no_split("nothing lent", r, 0, 0, 14);
    no_join("a byte too few, and a residue too large", r, large, r - 1, 14);
    no_join("a byte too many", r, large, r + 1, 14);
    no_join("nothing lent to join", r, NULL, 0, 14);
    large_residues(r);
}

/* ---- the parts */

enum part { ADD = 3, SCALE = 4, MULTIPLY = 5 };

/* b is the second bundle's first wire, of a scale the constant. */
static lupiknam_answer write_part(enum part part, uint32_t r, uint32_t first, uint32_t a, uint64_t b, uint8_t *file, size_t length,
    uint32_t *words)
{
    return part == ADD ? lupiknam_bundle_add(r, first, a, (uint32_t)b, file, length, words)
        : part == MULTIPLY ? lupiknam_bundle_multiply(r, first, a, (uint32_t)b, file, length, words)
                           : lupiknam_bundle_scale(r, first, b, a, file, length, words);
}

/* The words that a part must have; returns their number. */
static uint32_t due_words(enum part part, uint32_t r, uint32_t a, uint64_t b, uint32_t *words)
{
    uint32_t count = 0;
    for (uint32_t i = 0; i < r; i++) {
        const uint32_t p = primes[i], constant = (uint32_t)(b % p);
        if (part != SCALE)
            words[count++] = (uint32_t)part << 28 | (a + i) << 10 | ((uint32_t)b + i);
        else if (constant != 0)
            words[count++] = 4u << 28 | constant << 10 | (a + i);
        else
            for (uint32_t entry = 0; entry <= p; entry++)
                words[count++] = entry == 0 ? 6u << 28 | p << 10 | (a + i) : 7u << 28;
    }
    return count;
}

static uint8_t file[4 * MOST_PART + 8];

static int lies_there(const uint32_t *words, uint32_t count)
{
    for (size_t i = 0; i < 4 * (size_t)count; i++)
        if (file[i] != (uint8_t)(words[i / 4] >> 8 * (i % 4)))
            return 0;
    return 1;
}

/* A part that is accepted, in a buffer that is as long as its words or longer, and refused where the buffer is shorter. */
static void part_is(const char *what, enum part part, uint32_t r, uint32_t first, uint32_t a, uint64_t b)
{
    uint32_t due[MOST_PART], words, count = due_words(part, r, a, b, due);
    const size_t lengths[] = {4 * (size_t)count, sizeof file, 4 * (size_t)count - 1, 4 * (size_t)count - 4, 3, 0};
    for (size_t i = 0; i < sizeof lengths / sizeof lengths[0]; i++) {
        const int fits = lengths[i] >= 4 * (size_t)count;
        words = FILL;
        memset(file, FILL, sizeof file);
        check(answers(write_part(part, r, first, a, b, lengths[i] ? file : NULL, lengths[i], &words), fits ? 0 : 22), what, r);
        check(words == (fits ? count : FILL) && (!fits || lies_there(due, count)), what, r);
        check(all_fill(file + (fits ? 4 * count : 0), sizeof file - (fits ? 4 * count : 0)), what, r);
    }
}

static void no_part(const char *what, enum part part, uint32_t r, uint32_t first, uint32_t a, uint64_t b, size_t length, uint32_t refusal)
{
    uint32_t words = FILL;
    memset(file, FILL, sizeof file);
    check(answers(write_part(part, r, first, a, b, length ? file : NULL, length, &words), refusal), what, r);
    check(words == FILL && all_fill(file, sizeof file), what, r);
}

/* Of a sum or a product. */
static void two_bundles(enum part part, uint32_t r)
{
    const uint32_t last = MOST_WIRES - r;
    part_is("two bundles", part, r, 2 * r, 0, r);
    part_is("two bundles, the other way round", part, r, 2 * r, r, 0);
    part_is("one bundle twice", part, r, r, 0, 0);
    part_is("bundles that overlap", part, r, 2 * r, 1, r - 1);
    part_is("the last wires", part, r, last, last - r, 0);
    no_part("the second bundle a wire too high", part, r, 2 * r, 0, r + 1, sizeof file, 5);
    no_part("the first bundle a wire too high", part, r, 2 * r, r + 1, 0, sizeof file, 5);
    no_part("the part's own wires", part, r, 2 * r, 2 * r, 0, sizeof file, 5);
    no_part("no wire made yet", part, r, 0, 0, 0, sizeof file, 5);
    no_part("a first bundle that ends past 2^32", part, r, 2 * r, UINT32_MAX - 1, 0, sizeof file, 5);
    no_part("a second bundle that ends past 2^32", part, r, 2 * r, 0, UINT32_MAX - 1, sizeof file, 5);
    no_part("wire 1,024, and a bundle too high", part, r, last + 1, last + 1, 0, 0, 5);
    no_part("wire 1,024", part, r, last + 1, 0, r, 0, 8);
    no_part("no wire below 1,024", part, r, MOST_WIRES, 0, r, sizeof file, 8);
    no_part("a part that ends past 2^32", part, r, UINT32_MAX, 0, r, sizeof file, 8);
}

static void scales(uint32_t r)
{
    const uint32_t last = MOST_WIRES - r;
    const uint64_t product = products[r];
    part_is("by 0", SCALE, r, r, 0, 0);
    part_is("by 1", SCALE, r, r, 0, 1);
    part_is("by -1", SCALE, r, r, 0, product - 1);
    for (uint32_t i = 0; i < r; i++) {
        part_is("by a prime", SCALE, r, r + 5, 3, primes[i] % product);
        part_is("by the other primes", SCALE, r, r + 5, 3, product / primes[i]);
    }
    part_is("the last wires", SCALE, r, last, last - r, 1);
    no_part("by the product, of a bundle too high", SCALE, r, last + 1, last + 1, product, 0, 24);
    no_part("by the largest constant", SCALE, r, r, 0, UINT64_MAX, sizeof file, 24);
    no_part("a bundle a wire too high", SCALE, r, r, 1, 1, sizeof file, 5);
    no_part("a bundle that ends past 2^32", SCALE, r, 2 * r, UINT32_MAX - 1, 1, sizeof file, 5);
    no_part("wire 1,024, and a bundle too high", SCALE, r, last + 1, last + 1, 1, 0, 5);
    no_part("wire 1,024", SCALE, r, last + 1, 0, 1, 0, 8);
    no_part("a part that ends past 2^32", SCALE, r, UINT32_MAX, 0, 1, sizeof file, 8);
}

static void no_bundle(uint32_t r)
{
    static const uint8_t residues[64];
    no_split("no such bundle", r, UINT64_MAX, r == 0 ? 1 : 0, 23);
    no_split("no such bundle, r bytes", r, 0, r < 64 ? r : 64, 23);
    no_join("no such bundle", r, residues, r < 64 ? r : 64, 23);
    no_part("no such bundle", ADD, r, 0, 0, 0, 0, 23);
    no_part("no such bundle", MULTIPLY, r, UINT32_MAX, UINT32_MAX, UINT32_MAX, sizeof file, 23);
    no_part("no such bundle", SCALE, r, 40, 0, UINT64_MAX, sizeof file, 23);
    no_part("no such bundle", SCALE, r, 40, 0, 1, sizeof file, 23);
}

/* ---- circuits with a part */

static uint8_t circuit[4 * (2 * MOST + MOST_PART + MOST + 2)];
static size_t circuit_length;

static void put(uint32_t word)
{
    for (int byte = 0; byte < 4; byte++)
        circuit[circuit_length++] = (uint8_t)(word >> 8 * byte);
}

/* Two bundles of inputs, a part behind them, and its bundle as outputs. */
static void build(enum part part, uint32_t r, uint32_t a, uint64_t b)
{
    uint32_t words = 0;
    circuit_length = 0;
    put(0x10000000);
    for (uint32_t i = 0; i < 2 * r; i++)
        put(0x20000000 | (i / r) << 16 | primes[i % r]);
    check(answers(write_part(part, r, 2 * r, a, b, circuit + circuit_length, sizeof circuit - circuit_length, &words), 0), "a part", r);
    circuit_length += 4 * (size_t)words;
    for (uint32_t i = 0; i < r; i++)
        put(0xA0000000 | (2 * r + i));
    put(0xB0000000);
}

/* What the circuit makes of two integers: the residues that come out are joined. */
static uint64_t result_of(uint32_t r, uint64_t x, uint64_t y)
{
    uint8_t values[2 * MOST], outputs[MOST];
    uint64_t result = FILL;
    check(answers(lupiknam_bundle_split(r, x, values, r), 0) && answers(lupiknam_bundle_split(r, y, values + r, r), 0), "splitting", r);
    check(answers(lupiknam_plain(circuit, circuit_length, values, 2 * r, outputs, r), 0), "plain evaluation", r);
    check(answers(lupiknam_bundle_join(r, outputs, r, &result), 0), "joining", r);
    return result;
}

static uint32_t rows_of(uint32_t r)
{
    uint32_t wires = 0, inputs, outputs, rows = 0, moduli, keys;
    check(answers(lupiknam_read(circuit, circuit_length, &wires, &inputs, &outputs, &rows, &moduli, &keys), 0), "reading", r);
    check(wires == 3 * r, "wires of a circuit with a part", r);
    return rows;
}

/* (x * y) % m, where x * y may pass 64 bits. */
static uint64_t times(uint64_t x, uint64_t y, uint64_t m)
{
    uint64_t sum = 0;
    for (; y > 0; y /= 2, x = 2 * x % m)
        sum = y % 2 ? (sum + x) % m : sum;
    return sum;
}

static uint32_t rows_for_two(uint32_t r)
{
    uint32_t rows = 0;
    check(answers(lupiknam_pair_read(circuit, circuit_length, &rows), 0), "reading for two", r);
    return rows;
}

/* A product has 2p rows for each prime p, a square p, but none at 2, where it is a copy; a project has p, sums and scales none. For two a
   product has 2p - 2, a square too, at every prime. */
static void computes(uint32_t r)
{
    const uint64_t m = products[r], some[] = {0, 1, 2, m / 2, m - 2, m - 1, 6700417 % m, 4294967296 % m, 3037000500 % m};
    const size_t count = sizeof some / sizeof some[0];
    uint32_t sum = 0, rows;
    for (uint32_t i = 0; i < r; i++)
        sum += primes[i];
    for (size_t i = 0; i < count * count; i++) {
        const uint64_t x = some[i / count], y = some[i % count];
        build(ADD, r, 0, r);
        check(rows_of(r) == 0 && result_of(r, x, y) == (x + y) % m, "a sum", r);
        build(MULTIPLY, r, 0, r);
        check(rows_of(r) == 2 * sum && result_of(r, x, y) == times(x, y, m), "a product", r);
        check(rows_for_two(r) == 2 * (sum - r), "a product for two", r);
        build(MULTIPLY, r, r, r);
        check(rows_of(r) == sum - 2 && result_of(r, x, y) == times(y, y, m), "a square", r);
        check(rows_for_two(r) == 2 * (sum - r), "a square for two", r);
        build(SCALE, r, 0, y);
        rows = 0;
        for (uint32_t p = 0; p < r; p++)
            rows += y % primes[p] == 0 ? primes[p] : 0;
        check(rows_of(r) == rows && result_of(r, x, 0) == times(x, y, m), "a multiple", r);
    }
}

int main(void)
{
    static const uint32_t odd[] = {0, 1, 11, 12, 255, 256 + 2, (1u << 16) + 5, (1u << 31) + 10, UINT32_MAX};
    for (uint32_t r = 2; r <= MOST; r++) {
        all_or_some(r);
        split_and_join_edges(r);
        two_bundles(ADD, r);
        two_bundles(MULTIPLY, r);
        scales(r);
        computes(r);
    }
    for (size_t i = 0; i < sizeof odd / sizeof odd[0]; i++)
        no_bundle(odd[i]);
    return failed;
}
