/*
 * A bit times itself, from C. In a ring it is a copy of its wire, with no rows and no record: what reading counts of copies, squares and
 * products; rounds in which copies are outputs, branches and the bit of a choice, each opened to the keys and the external value of its
 * wire, also where a row was damaged; and contributions and rows laid out as they once were, with a record and two rows for each copy, which
 * every call that takes them must refuse by 14. A refused call must leave every byte and number as it was. Prints what is not so; the exit
 * status is 0 where there is nothing to print.
 */
#include "lupiknam.h"
#include <stdio.h>
#include <string.h>

enum { N = 3, K = 3, ROW = N * K, FILL = 0x55 };

static int failed = 0;

static void check(int holds, const char *what, unsigned of)
{
    if (holds)
        return;
    printf("failed: %s (%u)\n", what, of);
    failed = 1;
}

static int answers(lupiknam_answer answer, uint32_t number, size_t place)
{
    if (answer.number != number || answer.place != place)
        printf("%u at %zu where %u at %zu is due\n", (unsigned)answer.number, answer.place, (unsigned)number, place);
    return answer.number == number && answer.place == place;
}

static int all_are(const uint8_t *from, size_t length, uint8_t byte)
{
    while (length > 0)
        if (from[--length] != byte)
            return 0;
    return 1;
}

static size_t lay(const uint32_t *words, size_t count, uint8_t *file)
{
    for (size_t i = 0; i < 4 * count; i++)
        file[i] = (uint8_t)(words[i / 4] >> 8 * (i % 4));
    return 4 * count;
}

/* ---- reading: rows and keys as docs/HOST.md counts them, and the rows of the two-party form, which has no copies */

static const struct {
    uint32_t words[6];
    size_t count;
    uint32_t rows, keys, rows_for_two;
} readings[] = {
    {{0x10000000, 0x20000002, 0x50000000, 0xA0000001, 0xB0000000}, 5, 0, 1, 2},             /* a bit times itself      */
    {{0x10000000, 0x20000002, 0x50000000, 0x50000401, 0xA0000002, 0xB0000000}, 6, 0, 1, 4}, /* a copy times itself     */
    {{0x10000000, 0x20000002, 0x50000000, 0x50000001, 0xA0000002, 0xB0000000}, 6, 4, 3, 4}, /* a bit times its copy    */
    {{0x10000000, 0x20000002, 0x20010002, 0x50000001, 0xA0000002, 0xB0000000}, 6, 4, 4, 2}, /* a bit times another     */
    {{0x10000000, 0x20000003, 0x50000000, 0xA0000001, 0xB0000000}, 5, 3, 2, 4},             /* a square of modulus 3   */
    {{0x10000000, 0x200000FB, 0x50000000, 0xA0000001, 0xB0000000}, 5, 251, 2, 500},         /* a square of modulus 251 */
};

static void reading(void)
{
    for (unsigned i = 0; i < sizeof readings / sizeof readings[0]; i++) {
        uint8_t file[4 * 6];
        uint32_t wires = 0, inputs, outputs, rows = 0, moduli, keys = 0, for_two = 0;
        const size_t length = lay(readings[i].words, readings[i].count, file);
        check(answers(lupiknam_read(file, length, &wires, &inputs, &outputs, &rows, &moduli, &keys), 0, 0), "reading", i);
        check(wires == readings[i].count - 3, "a copy is a wire of its own", i);
        check(rows == readings[i].rows && keys == readings[i].keys, "rows and keys", i);
        check(answers(lupiknam_pair_read(file, length, &for_two), 0, 0) && for_two == readings[i].rows_for_two, "rows for two", i);
    }
}

/* ---- a circuit whose wires are all outputs, and what is lent for it */

static const uint32_t circuit[] = {
    0x10000000, /* head                                                          */
    0x20000002, /* wire 0: input of party 0, modulus 2                           */
    0x20010002, /* wire 1: input of party 1, modulus 2                           */
    0x20020003, /* wire 2: input of party 2, modulus 3                           */
    0x50000000, /* wire 3: wire 0 times itself, a copy of an input               */
    0x50000C03, /* wire 4: wire 3 times itself, a copy of a copy                 */
    0x50000001, /* wire 5: wire 0 times wire 1                                   */
    0x50001405, /* wire 6: wire 5 times itself, a copy of a product              */
    0x30000001, /* wire 7: wire 0 + wire 1                                       */
    0x50001C07, /* wire 8: wire 7 times itself, a copy of a sum                  */
    0x50000802, /* wire 9: wire 2 times itself, which is no copy but a square    */
    0x60000809, /* wire 10: wire 9 by a table, modulus 2: 0 to 1 and 1 to 0      */
    0x70000001, 0x70000000, 0x70000001,
    0x5000280A, /* wire 11: wire 10 times itself, a copy of a table's            */
    0x80000004, /* wire 12: by the bit on wire 4,                                */
    0x9000200B, /*          wire 8 where it is 0, wire 11 where it is 1          */
    0x5000300C, /* wire 13: wire 12 times itself, a copy of a choice             */
    0x50000003, /* wire 14: wire 0 times wire 3: the same bit, but two wires     */
    0xA0000000, 0xA0000001, 0xA0000002, 0xA0000003, 0xA0000004, 0xA0000005, 0xA0000006, 0xA0000007, 0xA0000008, 0xA0000009, 0xA000000A,
    0xA000000B, 0xA000000C, 0xA000000D, 0xA000000E,
    0xB0000000, /* end                                                           */
};

enum { WORDS = sizeof circuit / sizeof circuit[0], WIRES = 15, INPUTS = 3, COPIES = 6 };

/* The wires that are copies, and of which. */
static const size_t copy[COPIES][2] = {{3, 0}, {4, 3}, {6, 5}, {8, 7}, {11, 10}, {13, 12}};

/* The products have 4 rows each, the square and the table 3 each, and the choice 6. In the records are three keys of inputs, two of each
   product, one of the square, one of the table and three of the choice. */
enum { ROWS = 4 + 4 + 3 + 3 + 6, KEYS = 3 + 2 + 2 + 1 + 1 + 3, CONTRIBUTION = 2 * K + (K + 1) * KEYS };
static const uint8_t modulus[WIRES] = {2, 2, 3, 2, 2, 2, 2, 2, 2, 3, 2, 2, 2, 2, 2};
static const uint8_t keys_of[WIRES] = {1, 1, 1, 0, 0, 2, 0, 0, 0, 1, 1, 0, 3, 0, 2};

/* How much longer a contribution and the rows were for each copy. */
enum { RECORD_BEFORE = K + 1, ROWS_BEFORE = 2 * ROW };

static uint8_t file[4 * WORDS], contributions[N * (CONTRIBUTION + COPIES * RECORD_BEFORE)], rows[ROWS * ROW + COPIES * ROWS_BEFORE];
static uint8_t input_masks[INPUTS], sheets[N * WIRES], externals[INPUTS], own_keys[INPUTS * K], keys[INPUTS * ROW];
static uint8_t wire_keys[WIRES * ROW], wire_externals[WIRES], decoded[WIRES], plain[WIRES];
static lupiknam_meter meter;

static uint8_t below(uint32_t bound)
{
    static uint64_t state = 10;
    state = state * 6364136223846793005u + 1442695040888963407u;
    return (uint8_t)((uint32_t)(state >> 33) % bound);
}

/* Offsets of 2 and of 3, whose first bytes are 1, then the records. */
static void draw(void)
{
    uint8_t *at = contributions;
    for (int party = 0; party < N; party++) {
        for (uint8_t p = 2; p <= 3; p++)
            for (int i = 0; i < K; i++)
                *at++ = i == 0 ? 1 : below(p);
        for (int w = 0; w < WIRES; w++)
            for (int i = 0; i < (K + 1) * keys_of[w]; i++)
                *at++ = below(modulus[w]);
    }
    check(at == contributions + N * CONTRIBUTION, "the length of what is drawn", 0);
}

/* ---- the calls that take contributions or rows, with so many bytes of them */

static lupiknam_answer garble(size_t contributions_length, size_t rows_length)
{
    memset(rows, FILL, sizeof rows);
    memset(input_masks, FILL, sizeof input_masks);
    memset(sheets, FILL, sizeof sheets);
    lupiknam_meter_carry(0, &meter);
    return lupiknam_garble(file, sizeof file, N, K, 7, 0, contributions, contributions_length, rows, rows_length, input_masks, INPUTS, sheets,
        sizeof sheets, &meter);
}

static lupiknam_answer make_keys(uint32_t party, size_t contribution_length)
{
    memset(own_keys, FILL, sizeof own_keys);
    return lupiknam_input_keys(file, sizeof file, N, K, party, contributions + party * CONTRIBUTION, contribution_length, externals, INPUTS,
        own_keys, sizeof own_keys);
}

static lupiknam_answer open_at(uint32_t party, size_t contribution_length, size_t rows_length)
{
    memset(wire_keys, FILL, sizeof wire_keys);
    memset(wire_externals, FILL, sizeof wire_externals);
    return lupiknam_open(file, sizeof file, N, K, party, 7, contributions + party * CONTRIBUTION, contribution_length, externals, INPUTS,
        keys, sizeof keys, rows, rows_length, wire_keys, sizeof wire_keys, wire_externals, sizeof wire_externals);
}

/* ---- rounds */

/* The value of every wire, from those of the inputs. */
static void reckon(const uint8_t *values, uint8_t *of)
{
    memcpy(of, values, INPUTS);
    of[3] = of[4] = of[14] = of[0];
    of[5] = of[6] = of[0] == 1 && of[1] == 1;
    of[7] = of[8] = of[0] != of[1];
    of[9] = of[2] > 0; /* 0, 1 and 4 modulo 3 */
    of[10] = of[11] = of[2] == 0;
    of[12] = of[13] = of[0] == 0 ? of[8] : of[11];
}

/* Every party's key on a copy, and its external value, are those of its wire. */
static void opened_alike(unsigned number)
{
    for (int i = 0; i < COPIES; i++) {
        const size_t to = copy[i][0], from = copy[i][1];
        check(memcmp(wire_keys + to * ROW, wire_keys + from * ROW, ROW) == 0, "a copy's keys are its wire's", number);
        check(wire_externals[to] == wire_externals[from], "a copy's external value is its wire's", number);
    }
}

/* Party j owns input j. Its sheet has the masks of all wires. */
static void play(const uint8_t *values, unsigned number)
{
    uint8_t due[WIRES];
    reckon(values, due);
    draw();
    check(answers(garble(N * CONTRIBUTION, ROWS * ROW), 0, 0) && meter.totals[0] == ROWS, "garbling", number);
    for (uint32_t party = 0; party < N; party++)
        check(answers(lupiknam_externals(file, sizeof file, N, party, values + party, 1, input_masks + party, 1, externals + party, 1), 0, 0),
            "external values", number);
    for (uint32_t party = 0; party < N; party++) {
        check(answers(make_keys(party, CONTRIBUTION), 0, 0), "input keys", number);
        for (int w = 0; w < INPUTS; w++)
            memcpy(keys + w * ROW + party * K, own_keys + w * K, K);
    }
    for (uint32_t party = 0; party < N; party++) {
        const uint8_t *sheet = sheets + party * WIRES;
        check(answers(open_at(party, CONTRIBUTION, ROWS * ROW), 0, 0), "opening", number);
        opened_alike(number);
        check(answers(lupiknam_decode(file, sizeof file, N, party, wire_externals, WIRES, sheet, WIRES, decoded, WIRES), 0, 0), "decoding",
            number);
        check(memcmp(decoded, due, WIRES) == 0, "figures", number);
        for (int i = 0; i < COPIES; i++)
            check(sheet[copy[i][0]] == sheet[copy[i][1]], "a copy's mask is its wire's", number);
    }
    check(answers(lupiknam_plain(file, sizeof file, values, INPUTS, plain, WIRES), 0, 0) && memcmp(plain, due, WIRES) == 0,
        "plain evaluation", number);
}

/* Each byte of the rows in turn is another. Where opening accepts that, each copy still is its wire; where it does not, no copy is named. */
static void damaged_rows(void)
{
    int noticed = 0;
    for (unsigned at = 0; at < ROWS * ROW; at++) {
        const uint8_t was = rows[at];
        rows[at] = was == 0;
        const lupiknam_answer answer = open_at(at % N, CONTRIBUTION, ROWS * ROW);
        rows[at] = was;
        if (answer.number == 0) {
            opened_alike(at);
            continue;
        }
        noticed++;
        check(answer.number == 20 && answer.place < WIRES && keys_of[answer.place] > 0, "20 is for a wire with a record", at);
        check(all_are(wire_keys, sizeof wire_keys, 0) && all_are(wire_externals, WIRES, 0), "all zero after 20", at);
    }
    check(noticed > 0, "a damaged row that is noticed", 0);
}

/* ---- the old layout: a record and two rows more for one copy, or for so many */

static void opening_refused(size_t contribution_length, size_t rows_length, unsigned copies)
{
    check(answers(open_at(1, contribution_length, rows_length), 14, 0), "opening in an old layout", copies);
    check(all_are(wire_keys, sizeof wire_keys, FILL) && all_are(wire_externals, WIRES, FILL), "opening writes nothing", copies);
}

static void garbling_refused(size_t contributions_length, size_t rows_length, unsigned copies)
{
    check(answers(garble(contributions_length, rows_length), 14, 0), "garbling in an old layout", copies);
    check(all_are(rows, sizeof rows, FILL) && all_are(input_masks, INPUTS, FILL) && all_are(sheets, sizeof sheets, FILL)
            && meter.totals[0] == 0, "garbling writes nothing", copies);
}

static void old_layout(unsigned copies)
{
    const size_t contribution = CONTRIBUTION + copies * RECORD_BEFORE, all_rows = ROWS * ROW + copies * ROWS_BEFORE;
    opening_refused(contribution, ROWS * ROW, copies);
    opening_refused(CONTRIBUTION, all_rows, copies);
    opening_refused(contribution, all_rows, copies);
    check(answers(make_keys(1, contribution), 14, 0) && all_are(own_keys, sizeof own_keys, FILL), "input keys, an old contribution", copies);
    garbling_refused(N * contribution, ROWS * ROW, copies);
    garbling_refused(N * CONTRIBUTION, all_rows, copies);
    garbling_refused(N * contribution, all_rows, copies);
}

int main(void)
{
    reading();
    lay(circuit, WORDS, file);
    for (uint8_t all = 0; all < 12; all++) {
        const uint8_t values[INPUTS] = {all % 2, all / 2 % 2, all / 4};
        play(values, all);
        damaged_rows();
    }
    for (unsigned copies = 1; copies <= COPIES; copies++)
        old_layout(copies);
    return failed;
}
