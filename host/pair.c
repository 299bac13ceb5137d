/*
 * A whole round of the two-party form on a small circuit, for a host programmer to copy. Garbler and opener stand in this one process; in
 * the field each has its own, and what one of them hands to the other is marked "handed on" below.
 *
 *   pair [KEY_LENGTH [SEED]]
 *
 * Key length 16 where none is given. The garbler draws from /dev/urandom, or, for a test that can be made again, from SEED. The exit status
 * is 0 where every call accepts and every figure is right; else 1, and standard error says what was refused, in words, or what differs.
 */
#include "lupiknam.h"
#include <stdio.h>
#include <stdlib.h>
#include <string.h>

/* ---- the circuit: no selectors, and inputs of parties 0 and 1 alone; docs/FILE.md says how words are laid out */

static const uint32_t circuit[] = {
    0x10000000, /* head                                                              */
    0x20000005, /* wire 0: input of party 0, modulus 5                               */
    0x20010005, /* wire 1: input of party 1, modulus 5                               */
    0x20010003, /* wire 2: input of party 1, modulus 3                               */
    0x30000001, /* wire 3: wire 0 + wire 1                                           */
    0x40000C03, /* wire 4: 3 times wire 3                                            */
    0x50001001, /* wire 5: wire 4 times wire 1                                       */
    0x50001405, /* wire 6: wire 5 times itself                                       */
    0x60001C06, /* wire 7: wire 6 by a table, modulus 7; the images of 0 to 4 follow */
    0x70000001, 0x70000002, 0x70000003, 0x70000004, 0x70000005,
    0x60001402, /* wire 8: wire 2 by a table, modulus 5: the same number             */
    0x70000000, 0x70000001, 0x70000002,
    0x50002003, /* wire 9: wire 8 times wire 3                                       */
    0xA0000007, /* output: wire 7                                                    */
    0xA0000809, /* output: wire 9; names party 1, which this form passes over        */
    0xB0000000, /* end                                                               */
};

enum { WORDS = sizeof circuit / sizeof circuit[0], INPUTS = 3, OUTPUTS = 2, MODULI = 3, ROWS = 30, ROUNDS = 3, ACCOUNTS = 8 };

/* Values of the inputs, and the outputs, worked out by hand: for 3, 4 and 1 wire 3 is 2, wire 4 is 1, wire 5 is 4, wire 6 is 1, wire 7 is
   2, wire 8 is 1 and wire 9 is 2. The rows are 2 * 5 - 2 of each of the three products, the square among them, and 5 - 1 and 3 - 1 of the
   tables; a round of round.c's kind would have 10, 5 and 10, and 5 and 3. */
static const uint8_t values[ROUNDS][INPUTS] = {{3, 4, 1}, {3, 4, 0}, {4, 3, 2}};
static const uint8_t figures[ROUNDS][OUTPUTS] = {{2, 2}, {2, 0}, {5, 4}};

/* The account that each garbling is charged to. */
static const uint32_t accounts[ROUNDS] = {2, 5, 2};

/* ---- what may go wrong */

static void fail(const char *what)
{
    fprintf(stderr, "%s\n", what);
    exit(1);
}

static void must(lupiknam_answer answer, const char *call)
{
    if (answer.number == 0)
        return;
    fprintf(stderr, "%s refused: %s (%u at %zu)\n", call, lupiknam_refusal(answer.number), (unsigned)answer.number, answer.place);
    exit(1);
}

/* The rows went to the named account, and no other total moved. */
static void charged(const lupiknam_meter *before, const lupiknam_meter *after, uint32_t account)
{
    for (uint32_t i = 0; i < ACCOUNTS; i++)
        if (after->totals[i] != before->totals[i] + (i == account ? ROWS : 0))
            fail("garbling: the meter differs");
}

static void same(const uint8_t *found, const uint8_t *expected, size_t length, const char *what)
{
    if (memcmp(found, expected, length) == 0)
        return;
    fprintf(stderr, "%s: the figures differ\n", what);
    exit(1);
}

static void *room(size_t bytes)
{
    void *at = calloc(bytes ? bytes : 1, 1);
    if (!at)
        fail("no memory");
    return at;
}

/* ---- drawing */

static FILE *urandom;  /* where no seed is given */
static uint64_t state; /* else: splitmix64, which is for tests and is no source of keys */

static uint8_t random_byte(void)
{
    if (urandom) {
        int byte = fgetc(urandom);
        if (byte == EOF)
            fail("/dev/urandom: no byte");
        return (uint8_t)byte;
    }
    uint64_t z = state += 0x9E3779B97F4A7C15u;
    z = (z ^ z >> 30) * 0xBF58476D1CE4E5B9u;
    z = (z ^ z >> 27) * 0x94D049BB133111EBu;
    return (uint8_t)(z >> 56);
}

/* A number below a modulus, each as likely: bytes from the last whole multiple of the modulus on are drawn again. */
static uint8_t below(unsigned modulus)
{
    unsigned byte;
    do
        byte = random_byte();
    while (byte >= 256 - 256 % modulus);
    return (uint8_t)(byte % modulus);
}

/* The modulus of each wire of an accepted file, by its records: inputs and projects name theirs, the others have that of their first
   wire. */
static void list_moduli(const uint8_t *file, size_t length, uint32_t wires, uint32_t outputs, unsigned *moduli)
{
    size_t entries = 0;
    for (size_t i = 0; i < length; i += 4)
        entries += file[i + 3] >> 4 == 7;
    const size_t count = (size_t)wires + outputs;
    lupiknam_record *records = room(count * sizeof *records);
    uint8_t *tables = room(entries);
    must(lupiknam_records(file, length, records, count, tables, entries), "records");
    for (uint32_t w = 0; w < wires; w++)
        moduli[w] = records[w].modulus ? records[w].modulus : moduli[records[w].a];
    free(records);
    free(tables);
}

/* The garbler's draw: an offset for each modulus in use, ascending, whose component 0 is 1; then the zero keys of the inputs, whose
   component 0 is the mask. Draws into `at`, returns where it ends. */
static uint8_t *draw(uint8_t *at, const unsigned *moduli, uint32_t wires, uint32_t inputs, size_t k)
{
    for (unsigned modulus = 2; modulus < 256; modulus++) {
        int used = 0;
        for (uint32_t w = 0; w < wires; w++)
            used |= moduli[w] == modulus;
        for (size_t i = 0; used && i < k; i++)
            *at++ = i == 0 ? 1 : below(modulus);
    }
    for (uint32_t w = 0; w < inputs; w++)
        for (size_t i = 0; i < k; i++)
            *at++ = below(moduli[w]);
    return at;
}

/* ---- a round */

static void play(const uint8_t *file, size_t length, uint32_t k, int number, lupiknam_meter *meter)
{
    /* Both read the file. The counts give the length of every buffer; the rows are those of the two-party form, not lupiknam_read's. */
    uint32_t wires, inputs, outputs, rows_of_rings, moduli, record_keys, rows;
    must(lupiknam_read(file, length, &wires, &inputs, &outputs, &rows_of_rings, &moduli, &record_keys), "reading");
    must(lupiknam_pair_read(file, length, &rows), "reading for two");
    if (inputs != INPUTS || outputs != OUTPUTS || moduli != MODULI || rows != ROWS)
        fail("reading: the counts differ");
    unsigned *modulus = room(wires * sizeof *modulus);
    list_moduli(file, length, wires, outputs, modulus);

    const size_t key = k, draw_length = key * (moduli + inputs), rows_length = key * rows, keys_length = key * inputs;
    uint8_t *drawn = room(draw_length), *row_bytes = room(rows_length), *output_masks = room(outputs), *keys = room(keys_length);
    uint8_t *wire_keys = room(key * wires), *wire_externals = room(wires), *decoded = room(outputs), *plain = room(outputs);

    /* The garbler draws, afresh for each round. The draw is its secret and is handed to nobody. */
    if (draw(drawn, modulus, wires, inputs, k) != drawn + draw_length)
        fail("drawing: the length differs");

    /* At the garbler, garbling, in a round that the two agreed on and have not used for this circuit, for the account that pays for it.
       Handed on: rows to the opener, output masks to whoever may read the figures; but first a unit saves its meter. */
    const lupiknam_meter before = *meter;
    const uint32_t round = (uint32_t)number, account = accounts[number];
    must(lupiknam_pair_garble(file, length, k, round, account, drawn, draw_length, row_bytes, rows_length, output_masks, outputs, meter),
        "garbling");
    charged(&before, meter, account);

    /* At the garbler, the input keys, of the values of all inputs, which stand together in this program. Handed on: one key for each input,
       to the opener. In the field the garbler does not know the opener's values: the opener gets the keys of its own inputs by oblivious
       transfer, which the host brings. Two keys of one input would give the opener the offset: never hand over a second. */
    must(lupiknam_pair_input_keys(file, length, k, drawn, draw_length, values[number], inputs, keys, keys_length), "input keys");

    /* At the opener, opening; then decoding, where the output masks are, here at the opener too. What opening wrote stays there: the garbler
       knows all masks, so that an external byte or a key would tell it that wire's value. Where the garbler is to decode, the opener hands
       on the external bytes of the outputs alone, with 0 for all other wires, and never a key. */
    must(lupiknam_pair_open(file, length, k, round, keys, keys_length, row_bytes, rows_length, wire_keys, key * wires, wire_externals,
             wires), "opening");
    must(lupiknam_pair_decode(file, length, wire_externals, wires, output_masks, outputs, decoded, outputs), "decoding");
    same(decoded, figures[number], outputs, "decoding");
    printf("round %d: the opener decodes %d %d\n", number, decoded[0], decoded[1]);

    /* The plain circuit, which neither can evaluate, since nobody has all values. */
    must(lupiknam_plain(file, length, values[number], inputs, plain, outputs), "plain evaluation");
    same(plain, figures[number], outputs, "plain evaluation");
    printf("round %d: the plain circuit gives %d %d\n", number, plain[0], plain[1]);

    void *all[] = {modulus, drawn, row_bytes, output_masks, keys, wire_keys, wire_externals, decoded, plain};
    for (size_t i = 0; i < sizeof all / sizeof all[0]; i++)
        free(all[i]);
}

int main(int count, char **given)
{
    /* 16 is for trying this out. Component 0 of an offset is fixed, so that of modulus p there are p^(K - 1): the smallest modulus here is
       3, and it takes K = 82 for 2^128 of them (docs/HOST.md, "Drawing for two"). */
    const unsigned long k = count > 1 ? strtoul(given[1], NULL, 10) : 16;
    if (count > 3 || k > 255) {
        fprintf(stderr, "usage: pair [KEY_LENGTH [SEED]]\n");
        return 2;
    }
    if (count > 2)
        state = strtoull(given[2], NULL, 10);
    else if (!(urandom = fopen("/dev/urandom", "rb"))) {
        perror("/dev/urandom");
        return 1;
    }

    uint8_t file[4 * WORDS];
    for (size_t i = 0; i < sizeof file; i++)
        file[i] = (uint8_t)(circuit[i / 4] >> 8 * (i % 4));

    /* A new meter is made once, and goes from garbling to garbling, of whichever form. A unit keeps it from run to run
       (host/meter_file.h). */
    lupiknam_meter meter;
    lupiknam_meter_carry(0, &meter);
    for (int number = 0; number < ROUNDS; number++)
        play(file, sizeof file, (uint32_t)k, number, &meter);
    for (int i = 0; i < ACCOUNTS; i++)
        if (meter.totals[i] > 0)
            printf("rows garbled for account %d: %u\n", i, (unsigned)meter.totals[i]);
    if (urandom)
        fclose(urandom);
    return 0;
}
