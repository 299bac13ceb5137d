/*
 * What the five calls of the two-party form answer, from C: every choice of faults, of which the first in the order of the checks must be
 * the one named; the rows of each gate; whole rounds over all values of a circuit with every kind of gate, whose keys must be zero key plus
 * value times offset on every wire; which rows opening reads; that the parties that outputs name are passed over; what decoding takes and
 * refuses; and what garbling does to the eight totals. A refused call must leave every byte and number as it was. Prints what is not so; the
 * exit status is 0 where there is nothing to print.
 */
#include "lupiknam.h"
#include <stdio.h>
#include <string.h>

enum { ACCOUNTS = 8, K = 3, MOST_WORDS = 64, MOST_WIRES = 16, MOST_ROWS = 500, SLACK = 8, FILL = 0x55 };

static const uint32_t limit = 4294967295;

static int failed = 0;

static void check(int holds, const char *what, unsigned of)
{
    if (holds)
        return;
    printf("failed: %s (%u)\n", what, of);
    failed = 1;
}

static int answers(lupiknam_answer answer, uint32_t number, size_t place)
{
    if (answer.number != number || answer.place != place)
        printf("%u at %zu where %u at %zu is due\n", (unsigned)answer.number, answer.place, (unsigned)number, place);
    return answer.number == number && answer.place == place;
}

static int all_fill(const uint8_t *from, size_t length)
{
    while (length > 0)
        if (from[--length] != FILL)
            return 0;
    return 1;
}

/* ---- files */

static uint8_t file[4 * MOST_WORDS];
static size_t file_length;

static void put(uint32_t word)
{
    for (int i = 0; i < 4; i++)
        file[file_length++] = (uint8_t)(word >> 8 * i);
}

static void put_words(const uint32_t *words, size_t count)
{
    file_length = 0;
    for (size_t i = 0; i < count; i++)
        put(words[i]);
}

/* What is wrong with a call, in the order of the checks. The faults of the file are laid into it, the others into what is lent. */
enum { BAD_OUTPUT, SELECTOR, NO_KEYS, OWNER_2, LENGTH, NO_ACCOUNT, LARGE_VALUE, LARGE_BYTE, OFFSET, LARGE_KEY, LARGE_ROW, FULL, FAULTS };

enum { WIRES = 11, INPUTS = 3, OUTPUTS = 11, MODULI = 4, ROWS = 23 };

static const unsigned modulus[WIRES] = {5, 5, 2, 5, 5, 3, 5, 5, 2, 5, 7}, moduli[MODULI] = {2, 3, 5, 7};

/* A circuit with every kind of gate but a select, whose wires are all outputs; with a selector its first is word 14, after a table. A bit
   times itself, a copy in a ring, is a product here, with 2 rows. */
static void lay_circuit(unsigned wrong)
{
    file_length = 0;
    put(0x10000000);
    put(0x20000005);                                     /* wire 0: input of party 0, modulus 5       */
    put(wrong >> OWNER_2 & 1 ? 0x20020005 : 0x20010005); /* wire 1: input of party 1, or 2, modulus 5 */
    put(0x20000002);                                     /* wire 2: input of party 0, modulus 2       */
    put(0x30000001);                                     /* wire 3: wire 0 + wire 1                   */
    put(0x50000C01);                                     /* wire 4: wire 3 times wire 1               */
    put(0x60000C04);                                     /* wire 5: wire 4 to modulus 3               */
    for (uint32_t value = 0; value < 5; value++)
        put(0x70000000 | (value + 2) % 3);
    put(0x30000403);                                     /* wire 6: wire 1 + wire 3                   */
    put(0x50000C03);                                     /* wire 7: wire 3 times itself               */
    if (wrong >> SELECTOR & 1) {                         /* two of them: the first is named           */
        put(0x80000002);
        put(0x90000001);
        put(0x80000002);
        put(0x90000001);
    }
    put(0x50000802);                                     /* wire 8: wire 2 times itself, a bit        */
    put(0x40001004);                                     /* wire 9: 4 times wire 4                    */
    put(0x60001C02);                                     /* wire 10: wire 2 to modulus 7              */
    put(0x70000006);
    put(0x70000003);
    for (uint32_t wire = 0; wire < OUTPUTS; wire++)
        put(0xA0000000 | wire);
    if (wrong >> BAD_OUTPUT & 1)
        put(0xA0000000 | 1000);
    put(0xB0000000);
}

/* ---- what is lent, with bytes around it that no call may touch */

struct lent {
    uint8_t bytes[MOST_ROWS * K + 2 * SLACK];
    size_t length;
};

static struct lent drawn, values, rows, masks, keys, wire_keys, wire_externals, decoded, plain;

static uint8_t *of(struct lent *b)
{
    return b->bytes + SLACK;
}

static void blank(struct lent *b)
{
    memset(b->bytes, FILL, sizeof b->bytes);
}

static int untouched(const struct lent *b)
{
    return all_fill(b->bytes, sizeof b->bytes);
}

static int untouched_around(const struct lent *b)
{
    return all_fill(b->bytes, SLACK) && all_fill(b->bytes + SLACK + b->length, sizeof b->bytes - SLACK - b->length);
}

static struct {
    uint32_t before[4];
    lupiknam_meter meter;
    uint32_t after[4];
} held;

static void set_meter(const uint32_t *totals)
{
    memset(&held, FILL, sizeof held);
    memcpy(held.meter.totals, totals, sizeof held.meter.totals);
}

static int holds(const uint32_t *totals)
{
    return memcmp(held.meter.totals, totals, sizeof held.meter.totals) == 0 && all_fill((const uint8_t *)held.before, sizeof held.before)
        && all_fill((const uint8_t *)held.after, sizeof held.after);
}

static uint32_t random_below(uint32_t bound)
{
    static uint64_t state = 8;
    state = state * 6364136223846793005u + 1442695040888963407u;
    return (uint32_t)(state >> 33) % bound;
}

/* Offsets, whose component 0 is 1, then the zero keys of the inputs. */
static void draw(void)
{
    for (size_t i = 0; i < MODULI + INPUTS; i++)
        for (size_t component = 0; component < K; component++) {
            const unsigned p = i < MODULI ? moduli[i] : modulus[i - MODULI];
            of(&drawn)[i * K + component] = i < MODULI && component == 0 ? 1 : (uint8_t)random_below(p);
        }
}

static void set_lengths(void)
{
    drawn.length = (MODULI + INPUTS) * K;
    values.length = INPUTS;
    rows.length = ROWS * K;
    masks.length = decoded.length = plain.length = OUTPUTS;
    keys.length = INPUTS * K;
    wire_keys.length = WIRES * K;
    wire_externals.length = WIRES;
}

/* ---- the calls */

enum call { GARBLE, INPUT_KEYS, OPEN, CALLS };

static uint32_t k = K, round_number = 6, account = 2;

static lupiknam_answer make(enum call call)
{
    switch (call) {
    case GARBLE:
        return lupiknam_pair_garble(file, file_length, k, round_number, account, of(&drawn), drawn.length, of(&rows), rows.length,
            of(&masks), masks.length, &held.meter);
    case INPUT_KEYS:
        return lupiknam_pair_input_keys(file, file_length, k, of(&drawn), drawn.length, of(&values), values.length, of(&keys), keys.length);
    default:
        return lupiknam_pair_open(file, file_length, k, round_number, of(&keys), keys.length, of(&rows), rows.length, of(&wire_keys),
            wire_keys.length, of(&wire_externals), wire_externals.length);
    }
}

/* The buffers of each call: those that it reads, then those that it writes. */
static struct lent *const lent_to[CALLS][4] = {
    {&drawn, &rows, &masks}, {&drawn, &values, &keys}, {&keys, &rows, &wire_keys, &wire_externals}};
static const int lent_count[CALLS] = {3, 3, 4}, read_count[CALLS] = {1, 2, 2};

/* The faults that a call can have, and the answer to each. Words of the file: the selector's is 14, a bad output follows eleven good
   ones. */
enum { EVERY_CALLS = 1 << BAD_OUTPUT | 1 << SELECTOR | 1 << NO_KEYS | 1 << OWNER_2 | 1 << LENGTH };
static const unsigned can_have[CALLS] = {
    EVERY_CALLS | 1 << NO_ACCOUNT | 1 << LARGE_BYTE | 1 << OFFSET | 1 << FULL,
    EVERY_CALLS | 1 << LARGE_VALUE | 1 << LARGE_BYTE | 1 << OFFSET, EVERY_CALLS | 1 << LARGE_KEY | 1 << LARGE_ROW};
static const struct {
    uint32_t number;
    size_t place;
} due[FAULTS] = {{5, 0}, {26, 14}, {11, 0}, {13, 1}, {14, 0}, {25, 0}, {15, 1}, {16, 7}, {27, 3}, {18, 4}, {18, 25}, {21, 0}};

/* Lays these faults into what is lent; `which` tells faults of one kind apart. */
static void spoil(enum call call, unsigned wrong, unsigned which)
{
    static const uint32_t no_keys[] = {0, 129, 256 + K, 4294967295}, no_accounts[] = {8, 255, 256 + 2, 4294967295};
    k = wrong >> NO_KEYS & 1 ? no_keys[which % 4] : K;
    account = wrong >> NO_ACCOUNT & 1 ? no_accounts[which % 4] : 2;
    if (wrong >> LENGTH & 1) {
        struct lent *b = lent_to[call][which % (unsigned)lent_count[call]];
        b->length += which & 4 ? 1 : (size_t)-1;
    }
    if (wrong >> LARGE_VALUE & 1) /* the last too */
        of(&values)[1] = 5, of(&values)[2] = 255;
    if (wrong >> LARGE_BYTE & 1) /* component 1 of the offset of 5, and the last byte of all */
        of(&drawn)[7] = (uint8_t)(which & 1 ? 5 : 255), of(&drawn)[(MODULI + INPUTS) * K - 1] = 2;
    if (wrong >> OFFSET & 1) /* of 3 and of 7; a component 0 that is 0, or above 1 */
        of(&drawn)[1 * K] = (uint8_t)(which & 1 ? 0 : 2), of(&drawn)[3 * K] = (uint8_t)(which & 2 ? 0 : 6);
    if (wrong >> LARGE_KEY & 1) /* of wire 1, and of wire 2 */
        of(&keys)[4] = 5, of(&keys)[8] = 2;
    if (wrong >> LARGE_ROW & 1) /* of the table on wire 5, whose rows are modulo 3 */
        of(&rows)[25] = (uint8_t)(which & 1 ? 3 : 255), of(&rows)[ROWS * K - 1] = 255;
}

/* Makes a call with these faults: the first of them in the order of the checks is the one named, and nothing is written. */
static void refuses(enum call call, unsigned wrong, unsigned which)
{
    static const uint32_t some[ACCOUNTS] = {100, 0, 4294900000, 7, 1, 65536, 2147483648, 31};
    uint32_t totals[ACCOUNTS];
    int first = 0;
    while (!(wrong >> first & 1))
        first++;
    memcpy(totals, some, sizeof totals);
    if (wrong >> FULL & 1)
        totals[2] = limit - ROWS + 1 + which % ROWS;
    struct lent *const all[] = {&drawn, &values, &rows, &masks, &keys, &wire_keys, &wire_externals};
    for (size_t i = 0; i < sizeof all / sizeof all[0]; i++)
        blank(all[i]);
    set_lengths();
    set_meter(totals);
    lay_circuit(wrong);
    draw();
    memset(of(&values), 1, INPUTS);
    if (call == OPEN) { /* bytes below every modulus */
        memset(of(&keys), 1, keys.length);
        memset(of(&rows), 1, rows.length);
    }
    spoil(call, wrong, which);
    struct lent before[4];
    for (int i = 0; i < lent_count[call]; i++)
        before[i] = *lent_to[call][i];
    const size_t word = first == BAD_OUTPUT ? file_length / 4 - 2 : due[first].place;
    check(answers(make(call), due[first].number, word), "the first fault in order", wrong);
    check(holds(totals), "totals of a refused call", wrong);
    for (int i = 0; i < lent_count[call]; i++) {
        check(memcmp(before[i].bytes, lent_to[call][i]->bytes, sizeof before[i].bytes) == 0, "bytes of a refused call", wrong);
        check(i < read_count[call] || untouched(lent_to[call][i]), "a refused call writes", wrong);
    }
}

static void all_faults(void)
{
    for (enum call call = GARBLE; call < CALLS; call++)
        for (unsigned wrong = 1; wrong < 1u << FAULTS; wrong++)
            for (unsigned which = 0; (wrong & ~can_have[call]) == 0 && which < 8; which++)
                refuses(call, wrong, which);
    k = K, account = 2;
    set_lengths();
}

/* A component 0 that is not below its modulus is 16's, in its place, also where a lower modulus has a bad offset. */
static void first_components(void)
{
    static const uint32_t empty[ACCOUNTS];
    lay_circuit(0);
    blank(&rows), blank(&masks), set_meter(empty);
    for (size_t q = 0; q < MODULI; q++) {
        draw();
        of(&drawn)[q * K] = (uint8_t)moduli[q];
        of(&drawn)[0] ^= q > 0; /* that of 2 is then 0 */
        check(answers(make(GARBLE), 16, q * K), "16 before 27", moduli[q]);
        draw();
        of(&drawn)[q * K] = 0;
        check(answers(make(GARBLE), 27, moduli[q]), "component 0 is 0", moduli[q]);
        of(&drawn)[q * K] = (uint8_t)(moduli[q] - 1);
        check(q == 0 || answers(make(GARBLE), 27, moduli[q]), "component 0 is the largest", moduli[q]);
    }
    check(untouched(&rows) && untouched(&masks) && holds(empty), "nothing is written after 16 and 27", 0);
}

/* ---- reading */

static const struct {
    uint32_t words[8];
    size_t count;
    uint32_t number, place, rows; /* the answer, and the rows where it is accepted */
} readings[] = {
    {{0x10000000, 0x200000FB, 0x200100FB, 0x50000001, 0xA0000002, 0xB0000000}, 6, 0, 0, 500},
    {{0x10000000, 0x200100FB, 0x50000000, 0xA0000001, 0xB0000000}, 5, 0, 0, 500},
    {{0x10000000, 0x20000002, 0x20010002, 0x50000001, 0xA0000002, 0xB0000000}, 6, 0, 0, 2},
    {{0x10000000, 0x20000002, 0x50000000, 0xA0000001, 0xB0000000}, 5, 0, 0, 2}, /* a bit times itself, which is a copy in a ring alone */
    {{0x10000000, 0x20000002, 0x50000000, 0x50000401, 0xA0000002, 0xB0000000}, 6, 0, 0, 4},
    {{0x10000000, 0x20010002, 0x60000800, 0x70000001, 0x70000000, 0xA0000001, 0xB0000000}, 7, 0, 0, 1},
    {{0x10000000, 0x20000005, 0x20010005, 0x30000001, 0x40000C02, 0xA0000003, 0xB0000000}, 7, 0, 0, 0},
    {{0x10000000, 0x20070005, 0xA0000000, 0xB0000000}, 4, 0, 0, 0}, /* owners are not looked at */
    {{0x10000000, 0x20000002, 0x20000002, 0x20010002, 0x80000000, 0x90000402, 0xA0000003, 0xB0000000}, 8, 26, 4, 0},
    {{0x10000000, 0x20000002, 0x80000000, 0x90000000, 0x80000001, 0x90000000, 0xA0000001, 0xB0000000}, 8, 26, 2, 0},
    {{0x10000000, 0x20000002, 0x50000000, 0x80000001, 0x90000001, 0xA0000001, 0xB0000000}, 7, 26, 3, 0},
    {{0x10000000, 0x20070002, 0x80000000, 0x90000000, 0xA0000001, 0xB0000000}, 6, 26, 2, 0},
    {{0x10000000, 0x20000002, 0x80000000, 0x90000000, 0xA0000001}, 5, 10, 5, 0}, /* words run out behind the selector */
    {{0x10000000, 0x20000002, 0x80000000, 0x90000000, 0xB0000000}, 5, 9, 4, 0},
    {{0x10000000, 0x20000005, 0x80000000, 0x90000000, 0xA0000001, 0xB0000000}, 6, 6, 2, 0}, /* a selector that is none */
};

static void reading(void)
{
    uint32_t found = 77;
    check(answers(lupiknam_pair_read(NULL, 0, &found), 1, 0) && found == 77, "no file", 0);
    for (size_t i = 0; i < sizeof readings / sizeof readings[0]; i++) {
        put_words(readings[i].words, readings[i].count);
        found = 77;
        check(answers(lupiknam_pair_read(file, file_length, &found), readings[i].number, readings[i].place), "reading", (unsigned)i);
        check(found == (readings[i].number ? 77 : readings[i].rows), "rows", (unsigned)i);
    }
    lay_circuit(0);
    check(answers(lupiknam_pair_read(file, file_length, &found), 0, 0) && found == ROWS, "rows of every kind of gate", 0);
    lay_circuit(1 << OWNER_2);
    check(answers(lupiknam_pair_read(file, file_length, &found), 0, 0) && found == ROWS, "rows of a circuit of three", 0);
    lay_circuit(1 << SELECTOR);
    found = 77;
    check(answers(lupiknam_pair_read(file, file_length, &found), 26, 14) && found == 77, "the first of two selectors", 0);
}

/* ---- rounds */

static const uint8_t *offset_of(unsigned p)
{
    size_t q = 0;
    while (moduli[q] != p)
        q++;
    return of(&drawn) + q * K;
}

/* The keys are the zero keys plus value times offset, and component 0 is the external value. */
static int keys_are(const uint8_t *found, const uint8_t *zero, const uint8_t *wire_values, size_t count)
{
    for (size_t w = 0; w < count; w++)
        for (size_t i = 0; i < K; i++)
            if (found[w * K + i] != (zero[w * K + i] + wire_values[w] * offset_of(modulus[w])[i]) % modulus[w])
                return 0;
    return 1;
}

static int externals_are_components(void)
{
    for (size_t w = 0; w < WIRES; w++)
        if (of(&wire_externals)[w] != of(&wire_keys)[w * K])
            return 0;
    return 1;
}

/* Input keys, opening and decoding, for values that are set; every wire is an output, so the plain figures are the wires' values. */
static void open_and_decode(unsigned number)
{
    blank(&keys), blank(&wire_keys), blank(&wire_externals), blank(&decoded), blank(&plain);
    check(answers(make(INPUT_KEYS), 0, 0) && untouched_around(&keys), "input keys", number);
    check(keys_are(of(&keys), of(&drawn) + MODULI * K, of(&values), INPUTS), "input keys are zero key plus value times offset", number);
    check(answers(make(OPEN), 0, 0) && untouched_around(&wire_keys) && untouched_around(&wire_externals), "opening", number);
    check(memcmp(of(&wire_keys), of(&keys), keys.length) == 0, "keys of inputs are those lent", number);
    check(externals_are_components(), "external values are component 0", number);
    check(answers(lupiknam_plain(file, file_length, of(&values), INPUTS, of(&plain), OUTPUTS), 0, 0), "plain evaluation", number);
    check(answers(lupiknam_pair_decode(file, file_length, of(&wire_externals), WIRES, of(&masks), OUTPUTS, of(&decoded), OUTPUTS), 0, 0)
            && untouched_around(&decoded), "decoding", number);
    check(memcmp(of(&decoded), of(&plain), OUTPUTS) == 0, "the figures are the plain circuit's", number);
}

/* One garbling, opened for all values: the keys of each wire, less value times offset, are the same zero key each time. */
static void rounds(void)
{
    static const uint32_t totals[ACCOUNTS] = {1, 2, 3, 4, 5, 6, 7, 8}, after[ACCOUNTS] = {1, 2, 3 + ROWS, 4, 5, 6, 7, 8};
    static const uint32_t numbers[] = {0, 1, 65536, 4294967295};
    uint8_t zero[WIRES * K], mask[WIRES];
    lay_circuit(0);
    for (unsigned number = 0; number < 60; number++) {
        round_number = numbers[number % 4];
        blank(&drawn), blank(&rows), blank(&masks), blank(&values);
        draw();
        set_meter(totals);
        check(answers(make(GARBLE), 0, 0) && untouched_around(&rows) && untouched_around(&masks), "garbling", number);
        check(holds(after), "the rows of this form are charged to the named account", number);
        for (unsigned all = 0; all < 50; all++) {
            memcpy(of(&values), (uint8_t[]){(uint8_t)(all % 5), (uint8_t)(all / 5 % 5), (uint8_t)(all / 25)}, INPUTS);
            open_and_decode(number);
            for (size_t i = 0; all == 0 && i < WIRES * K; i++) {
                const unsigned p = modulus[i / K], less = of(&plain)[i / K] * offset_of(p)[i % K] % p;
                zero[i] = (uint8_t)((of(&wire_keys)[i] + p - less) % p);
            }
            check(keys_are(of(&wire_keys), zero, of(&plain), WIRES), "every key is zero key plus value times offset", number);
        }
        for (size_t w = 0; w < WIRES; w++)
            mask[w] = zero[w * K];
        check(memcmp(mask, of(&masks), OUTPUTS) == 0, "masks are component 0 of zero keys", number);
    }
}

/* ---- which rows are read: of a half, that of the external value, and none where it is 0 */

static void rows_read(void)
{
    static const uint32_t words[] = {0x10000000, 0x20000003, 0x60001C00, 0x70000006, 0x70000001, 0x70000004, 0xA0000001, 0xB0000000};
    static const uint8_t draw_of_it[] = {1, 2, 0, 1, 5, 6, 0, 2, 1}; /* of 3, of 7, and the zero key, whose mask is 0 */
    static const uint32_t empty[ACCOUNTS];
    uint8_t its_rows[2 * K], key[K], opened[2][2 * K], externals[2], output[1], plain_output[1];
    put_words(words, sizeof words / sizeof words[0]);
    set_meter(empty);
    check(answers(lupiknam_pair_garble(file, file_length, K, 9, 0, draw_of_it, sizeof draw_of_it, its_rows, sizeof its_rows, of(&masks), 1,
              &held.meter), 0, 0) && held.meter.totals[0] == 2, "garbling a table", 0);
    for (uint8_t value = 0; value < 3; value++) {
        check(answers(lupiknam_pair_input_keys(file, file_length, K, draw_of_it, sizeof draw_of_it, &value, 1, key, K), 0, 0), "a key",
            value);
        for (int row = -1; row < 2; row++) { /* first as they are, then with another byte in this row */
            uint8_t lent[2 * K];
            memcpy(lent, its_rows, sizeof lent);
            if (row >= 0)
                lent[row * K + 1] = (uint8_t)((lent[row * K + 1] + 1) % 7);
            check(answers(lupiknam_pair_open(file, file_length, K, 9, key, K, lent, sizeof lent, opened[row >= 0], 2 * K, externals, 2), 0,
                      0), "opening a table", value);
            check(memcmp(opened[0], opened[1], 2 * K) == 0 || row + 1 == value || row < 0, "opening reads no other row", value);
            check(row + 1 != value || row < 0 || (opened[1][K + 1] == (opened[0][K + 1] + 1) % 7 && opened[1][K] == opened[0][K]),
                "opening reads its row", value);
        }
        check(externals[0] == value, "the mask is 0", value);
        check(answers(lupiknam_pair_decode(file, file_length, externals, 2, of(&masks), 1, output, 1), 0, 0)
                && answers(lupiknam_plain(file, file_length, &value, 1, plain_output, 1), 0, 0) && output[0] == plain_output[0],
            "figures of a table", value);
    }
}

/* ---- names: this form passes over them, also of parties that it has not */

/* The outputs of the circuit, which are the words before the last, name parties, each others. */
static void name_parties(unsigned from)
{
    for (size_t i = 0; i < OUTPUTS; i++) {
        uint8_t *word = file + file_length - 4 * (OUTPUTS + 1 - i);
        const unsigned named = (from + 37 * (unsigned)i) % 256;
        word[1] = (uint8_t)((word[1] & 3) | named << 2);
        word[2] = (uint8_t)(named >> 6);
        check(word[3] == 0xA0, "an output word", from);
    }
}

/* Garbled without names and with them from one draw: rows, masks, keys and figures are the same. */
static void names(void)
{
    static const uint32_t empty[ACCOUNTS];
    static struct lent plain_rows, plain_masks;
    lay_circuit(0);
    set_meter(empty);
    blank(&drawn), blank(&rows), blank(&masks), blank(&values);
    draw();
    check(answers(make(GARBLE), 0, 0), "garbling without names", 0);
    plain_rows = rows, plain_masks = masks;
    memcpy(of(&values), (uint8_t[]){3, 4, 1}, INPUTS);
    for (unsigned from = 0; from < 256; from++) {
        uint32_t found = 77;
        lay_circuit(0);
        name_parties(from);
        set_meter(empty);
        blank(&rows), blank(&masks);
        check(answers(lupiknam_pair_read(file, file_length, &found), 0, 0) && found == ROWS, "rows of a circuit with names", from);
        check(answers(make(GARBLE), 0, 0) && held.meter.totals[2] == ROWS, "garbling with names", from);
        check(memcmp(rows.bytes, plain_rows.bytes, sizeof rows.bytes) == 0, "names change no row", from);
        check(memcmp(masks.bytes, plain_masks.bytes, sizeof masks.bytes) == 0, "names change no mask", from);
        open_and_decode(from);
    }
}

/* ---- decoding: 1 to 10, 14 and 15 alone */

static lupiknam_answer decode(void)
{
    return lupiknam_pair_decode(file, file_length, of(&wire_externals), wire_externals.length, of(&masks), masks.length, of(&decoded),
        decoded.length);
}

static void decodes_not(uint32_t number, size_t place, const char *what, unsigned which)
{
    blank(&decoded);
    check(answers(decode(), number, place) && untouched(&decoded), what, which);
}

/* External value 1 and mask 0 everywhere: the figure is 1 for every output, whoever owns an input, whatever gates there are and whoever is
   named. */
static void decodes_any(unsigned wrong, unsigned wires, unsigned outputs)
{
    lay_circuit(wrong);
    if (!wrong)
        name_parties(255);
    wire_externals.length = wires, masks.length = decoded.length = outputs;
    blank(&wire_externals), blank(&masks), blank(&decoded);
    memset(of(&wire_externals), 1, wires);
    memset(of(&masks), 0, outputs);
    check(answers(decode(), 0, 0) && untouched_around(&decoded), "decoding any circuit", wrong);
    for (size_t i = 0; i < outputs; i++)
        check(of(&decoded)[i] == 1, "a figure of any circuit", wrong);
}

static void decoding(void)
{
    struct lent *const all[] = {&wire_externals, &masks, &decoded};
    decodes_any(1 << OWNER_2, WIRES, OUTPUTS);
    decodes_any(1 << SELECTOR, WIRES + 2, OUTPUTS);
    decodes_any(0, WIRES, OUTPUTS);
    for (unsigned i = 0; i < 6; i++) { /* one length too long, or too short, and bytes that are too large besides */
        of(&masks)[0] = 255;
        all[i / 2]->length += i % 2 ? 1 : (size_t)-1;
        decodes_not(14, 0, "decoding: a length", i);
        set_lengths();
    }
    for (size_t i = 0; i < OUTPUTS; i++) { /* every mask is judged, also of an output that names another party; of two the lower index */
        memset(of(&masks), 0, OUTPUTS);
        of(&masks)[i] = (uint8_t)modulus[i];
        decodes_not(15, i, "decoding: a mask", (unsigned)i);
        of(&wire_externals)[OUTPUTS - 1 - i] = 255;
        decodes_not(15, i < OUTPUTS - 1 - i ? i : OUTPUTS - 1 - i, "decoding: a mask and an external value", (unsigned)i);
        of(&masks)[i] = 0;
        decodes_not(15, OUTPUTS - 1 - i, "decoding: an external value", (unsigned)i);
        of(&wire_externals)[OUTPUTS - 1 - i] = 1;
    }
    lay_circuit(1 << BAD_OUTPUT);
    of(&masks)[0] = 255;
    wire_externals.length--;
    decodes_not(5, file_length / 4 - 2, "decoding a bad file", 0);
    set_lengths();
}

/* ---- the meter: both forms garbled one after another */

static void totals(void)
{
    static const uint32_t words[] = {0x10000000, 0x20000005, 0x20010005, 0x50000001, 0xA0000002, 0xB0000000};
    static uint8_t ones[256], its_rows[10 * 2 * K], in[2], out[2]; /* in a ring of two there are two sheets */
    uint32_t sums[ACCOUNTS] = {limit - 100, 0, 0, limit - 8, limit - 7, 0, limit, 0};
    put_words(words, sizeof words / sizeof words[0]);
    memset(ones, 1, sizeof ones);
    set_meter(sums);
    for (int i = 0; i < 400; i++) {
        const uint32_t named = random_below(10), pair = random_below(2), count = pair ? 8 : 10;
        const uint32_t number = named >= ACCOUNTS ? 25 : limit - sums[named] < count ? 21 : 0;
        lupiknam_answer answer = pair
            ? lupiknam_pair_garble(file, file_length, K, 0, named, ones, 3 * K, its_rows, 8 * K, out, 1, &held.meter)
            : lupiknam_garble(file, file_length, 2, K, 0, named, ones, 2 * (K + 4 * (K + 1)), its_rows, 10 * 2 * K, in, 2, out, 2,
                &held.meter);
        check(answers(answer, number, 0), "garblings of both forms", named);
        if (number == 0)
            sums[named] += count;
        check(holds(sums), "totals of both forms", named);
    }
}

int main(void)
{
    reading();
    all_faults();
    first_components();
    rounds();
    rows_read();
    names();
    decoding();
    totals();
    return failed;
}
