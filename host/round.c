/*
 * A whole round on a small circuit, for a host programmer to copy. All parties stand in this one process; in a ring each has its own, and
 * what one of them hands to another is marked "handed on" below.
 *
 *   round [PARTIES [KEY_LENGTH [SEED]]]
 *
 * 3 parties and key length 16 where they are not given. Contributions are drawn from /dev/urandom, or, for a test that can be made again,
 * from SEED. The exit status is 0 where every call accepts and every figure is right; else 1, and standard error says what was refused,
 * in words, or what differs.
 */
#include "lupiknam.h"
#include <stdio.h>
#include <stdlib.h>
#include <string.h>

/* ---- the circuit: docs/FILE.md says how words are laid out */

static const uint32_t circuit[] = {
    0x10000000, /* head                                                             */
    0x20000005, /* wire 0: input of party 0, modulus 5                              */
    0x20010005, /* wire 1: input of party 1, modulus 5                              */
    0x20020002, /* wire 2: input of party 2, modulus 2                              */
    0x30000001, /* wire 3: wire 0 + wire 1                                          */
    0x40000C03, /* wire 4: 3 times wire 3                                           */
    0x50001001, /* wire 5: wire 4 times wire 1                                      */
    0x50001405, /* wire 6: wire 5 times itself                                      */
    0x60001C06, /* wire 7: wire 6 by a table, modulus 7; the images of 0 to 4 follow */
    0x70000001, 0x70000002, 0x70000003, 0x70000004, 0x70000005,
    0x50000802, /* wire 8: wire 2 times itself, a bit: a copy of wire 2             */
    0x80000008, /* wire 9: by the bit on wire 8, one of the two wires that follow   */
    0x90001403, /*         wire 5 where it is 0, wire 3 where it is 1               */
    0xA0000007, /* output: wire 7, for every party                                  */
    0xA0000809, /* output: wire 9, for party 1 alone (bit 11)                       */
    0xA0001405, /* output: wire 5, for parties 0 and 2 (bits 10 and 12)             */
    0xB0000000, /* end                                                              */
};

enum { WORDS = sizeof circuit / sizeof circuit[0], INPUTS = 3, OUTPUTS = 3, ROWS = 32, ROUNDS = 3, ACCOUNTS = 8, NOT_READ = 255 };
enum { BIT = 2, COPY = 8 }; /* wires */

/* Values of the inputs, and the outputs, worked out by hand: for 3, 4 and 1 wire 3 is 2, wire 4 is 1, wire 5 is 4, wire 6 is 1, wire 7 is 2,
   wire 8 is 1, and wire 9 is wire 3. The rows are 10 of the product, 5 of the square, 5 of the table, none of the bit times itself, and 2 * 5
   + 2 of the choice. */
static const uint8_t values[ROUNDS][INPUTS] = {{3, 4, 1}, {3, 4, 0}, {4, 3, 1}};
static const uint8_t figures[ROUNDS][OUTPUTS] = {{2, 2, 4}, {2, 4, 4}, {5, 2, 3}};

/* The account that each garbling is charged to. Whose it is, and which ring garbles for it, stands in the host's books. */
static const uint32_t accounts[ROUNDS] = {2, 5, 2};

/* ---- what may go wrong */

static void must(lupiknam_answer answer, const char *call)
{
    if (answer.number == 0)
        return;
    fprintf(stderr, "%s refused: %s (%u at %zu)\n", call, lupiknam_refusal(answer.number), (unsigned)answer.number, answer.place);
    exit(1);
}

/* The rows went to the named account, and no other total moved. */
static void charged(const lupiknam_meter *before, const lupiknam_meter *after, uint32_t account)
{
    for (uint32_t i = 0; i < ACCOUNTS; i++)
        if (after->totals[i] != before->totals[i] + (i == account ? ROWS : 0)) {
            fprintf(stderr, "garbling: the meter differs\n");
            exit(1);
        }
}

static void same(const uint8_t *found, const uint8_t *expected, size_t length, const char *what)
{
    if (memcmp(found, expected, length) == 0)
        return;
    fprintf(stderr, "%s: the figures differ\n", what);
    exit(1);
}

static uint8_t *room(size_t bytes)
{
    uint8_t *at = calloc(bytes ? bytes : 1, 1);
    if (!at) {
        fprintf(stderr, "no memory\n");
        exit(1);
    }
    return at;
}

/* A bit times itself is opened as its wire is: every party's key, and the external value. */
static void copied(const uint8_t *wire_keys, const uint8_t *wire_externals, size_t row)
{
    if (memcmp(wire_keys + COPY * row, wire_keys + BIT * row, row) == 0 && wire_externals[COPY] == wire_externals[BIT])
        return;
    fprintf(stderr, "opening: the copy is not its wire\n");
    exit(1);
}

/* ---- who reads what: by the names in the output words, which stand before the end word */

static int may_read(uint32_t party, uint32_t output)
{
    const uint32_t named = circuit[WORDS - 1 - OUTPUTS + output] >> 10 & 255;
    return named == 0 || named >> party & 1;
}

/* A party's sheet has a mask for each output that the party may read, and for no other. */
static void own_alone(const uint8_t *sheet, uint32_t party)
{
    for (uint32_t output = 0; output < OUTPUTS; output++)
        if ((sheet[output] != NOT_READ) != may_read(party, output)) {
            fprintf(stderr, "garbling: the sheet of party %u is not its own\n", (unsigned)party);
            exit(1);
        }
}

/* The figures that are due to a party, with 255 for those that it may not read. */
static void due_to(uint32_t party, const uint8_t *all, uint8_t *due)
{
    for (uint32_t output = 0; output < OUTPUTS; output++)
        due[output] = may_read(party, output) ? all[output] : NOT_READ;
}

/* A line of figures, with - for what is not to be read. */
static void print_figures(const uint8_t *decoded)
{
    for (uint32_t output = 0; output < OUTPUTS; output++)
        if (decoded[output] == NOT_READ)
            printf(" -");
        else
            printf(" %d", decoded[output]);
    printf("\n");
}

/* ---- drawing contributions */

static FILE *urandom;  /* where no seed is given */
static uint64_t state; /* else: splitmix64, which is for tests and is no source of keys */

static uint8_t random_byte(void)
{
    if (urandom) {
        int byte = fgetc(urandom);
        if (byte == EOF) {
            fprintf(stderr, "/dev/urandom: no byte\n");
            exit(1);
        }
        return (uint8_t)byte;
    }
    uint64_t z = state += 0x9E3779B97F4A7C15u;
    z = (z ^ z >> 30) * 0xBF58476D1CE4E5B9u;
    z = (z ^ z >> 27) * 0x94D049BB133111EBu;
    return (uint8_t)(z >> 56);
}

/* A number below a modulus, each as likely: bytes from the last whole multiple of the modulus on are drawn again. */
static uint8_t below(unsigned modulus)
{
    unsigned byte;
    do
        byte = random_byte();
    while (byte >= 256 - 256 % modulus);
    return (uint8_t)(byte % modulus);
}

/* The modulus of each wire of an accepted file, the owner of each input, and the number of keys in each wire's record. */
struct wire {
    unsigned modulus, owner, keys;
};

static void list_wires(const uint8_t *file, size_t words, struct wire *wires)
{
    size_t made = 0;
    for (size_t i = 1; i < words; i++) {
        const uint8_t *b = file + 4 * i;
        uint32_t word = b[0] | (uint32_t)b[1] << 8 | (uint32_t)b[2] << 16 | (uint32_t)b[3] << 24;
        struct wire *next = &wires[made];
        switch (word >> 28) {
        case 2: /* input */
            *next = (struct wire){word & 255, word >> 16 & 255, 1};
            break;
        case 3: /* add */
        case 4: /* scale */
            *next = (struct wire){wires[word & 1023].modulus, 0, 0};
            break;
        case 5: /* multiply: of a wire by itself, a square, it has a projection's record, and of a bit by itself, a copy, none */
            *next = (struct wire){wires[word & 1023].modulus, 0, 2};
            if ((word >> 10 & 1023) == (word & 1023))
                next->keys = next->modulus == 2 ? 0 : 1;
            break;
        case 6: /* project */
            *next = (struct wire){word >> 10 & 255, 0, 1};
            break;
        case 9: /* branches: the second word of a select */
            *next = (struct wire){wires[word & 1023].modulus, 0, 3};
            break;
        default: /* entries, the first word of a select, outputs and the end make no wire here */
            continue;
        }
        made++;
    }
}

/* One party's contribution: an offset for each modulus in use, ascending, then the records. Draws into `at`, returns where it ends. */
static uint8_t *draw(uint8_t *at, const struct wire *wires, size_t count, size_t k)
{
    for (unsigned modulus = 2; modulus < 256; modulus++) {
        int used = 0, zero = 1;
        for (size_t w = 0; w < count; w++)
            used |= wires[w].modulus == modulus;
        while (used && zero && k > 0) { /* an offset that is all zero is drawn again */
            for (size_t i = 0; i < k; i++)
                zero &= (at[i] = below(modulus)) == 0;
        }
        at += used ? k : 0;
    }
    for (size_t w = 0; w < count; w++)
        for (size_t i = 0; i < (k + 1) * wires[w].keys; i++)
            *at++ = below(wires[w].modulus);
    return at;
}

/* ---- a round */

static void play(const uint8_t *file, size_t length, uint32_t n, uint32_t k, int number, lupiknam_meter *meter)
{
    /* Every party reads the file; the counts give the length of every buffer. */
    uint32_t wires, inputs, outputs, rows, moduli, record_keys;
    must(lupiknam_read(file, length, &wires, &inputs, &outputs, &rows, &moduli, &record_keys), "reading");
    if (inputs != INPUTS || outputs != OUTPUTS || rows != ROWS) {
        fprintf(stderr, "reading: the counts differ\n");
        exit(1);
    }
    struct wire *wire = (struct wire *)(void *)room(wires * sizeof *wire);
    list_wires(file, length / 4, wire);

    const size_t key = k, row = (size_t)n * k, size = key * moduli + (key + 1) * record_keys;
    const size_t sheet_length = outputs, sheets_length = n * sheet_length;
    uint8_t *contributions = room(n * size), *row_bytes = room(rows * row), *input_masks = room(inputs), *sheets = room(sheets_length);
    uint8_t *externals = room(inputs), *own_values = room(inputs), *own_masks = room(inputs), *own_externals = room(inputs);
    uint8_t *keys = room(inputs * row), *own_keys = room(inputs * key);
    uint8_t *wire_keys = room(wires * row), *wire_externals = room(wires), *sheet = room(sheet_length);
    uint8_t *decoded = room(outputs), *due = room(outputs), *plain = room(outputs);

    /* Each party draws its contribution, afresh for each round. Handed on: all of them to whoever garbles. */
    for (uint32_t party = 0; party < n; party++)
        if (draw(contributions + party * size, wire, wires, k) != contributions + (party + 1) * size) {
            fprintf(stderr, "drawing: the length differs\n");
            exit(1);
        }

    /* Garbling, in a round that the ring agreed on and has not used for this circuit, for the account that pays for it. Handed on: rows to
       every party, each input's mask to its owner alone, and to each party its own sheet of output masks, never another's: whoever has
       opened can read an output once it has the mask. But first a unit saves its meter. */
    const lupiknam_meter before = *meter;
    const uint32_t round = (uint32_t)number, account = accounts[number];
    must(lupiknam_garble(file, length, n, k, round, account, contributions, n * size, row_bytes, rows * row, input_masks, inputs, sheets,
             sheets_length, meter), "garbling");
    charged(&before, meter, account);

    /* At each party, the external values of its own inputs. Handed on: to every party, which puts them in the order of the wires. */
    for (uint32_t party = 0; party < n; party++) {
        uint32_t own, at = 0;
        must(lupiknam_inputs_of(file, length, n, party, &own), "counting own inputs");
        for (uint32_t w = 0; w < inputs; w++)
            if (wire[w].owner == party) {
                own_values[at] = values[number][w];
                own_masks[at++] = input_masks[w];
            }
        must(lupiknam_externals(file, length, n, party, own_values, own, own_masks, own, own_externals, own), "external values");
        at = 0;
        for (uint32_t w = 0; w < inputs; w++)
            if (wire[w].owner == party)
                externals[w] = own_externals[at++];
    }

    /* At each party, its keys on all inputs. Handed on: to every party, which puts them in the order of inputs, then parties. */
    for (uint32_t party = 0; party < n; party++) {
        must(lupiknam_input_keys(file, length, n, k, party, contributions + party * size, size, externals, inputs, own_keys, inputs * key),
            "input keys");
        for (uint32_t w = 0; w < inputs; w++)
            memcpy(keys + w * row + party * key, own_keys + w * key, key);
    }

    /* At each party, opening and decoding: nothing more is handed on. `sheet` is all that this party has of the output masks; with it
       decoding gives the outputs that the party may read, and 255 for the others. */
    for (uint32_t party = 0; party < n; party++) {
        must(lupiknam_open(file, length, n, k, party, round, contributions + party * size, size, externals, inputs, keys, inputs * row,
                 row_bytes, rows * row, wire_keys, wires * row, wire_externals, wires), "opening");
        copied(wire_keys, wire_externals, row);
        memcpy(sheet, sheets + party * sheet_length, sheet_length);
        own_alone(sheet, party);
        must(lupiknam_decode(file, length, n, party, wire_externals, wires, sheet, sheet_length, decoded, outputs), "decoding");
        due_to(party, figures[number], due);
        same(decoded, due, outputs, "decoding");
        printf("round %d: party %u decodes", number, (unsigned)party);
        print_figures(decoded);
    }

    /* The plain circuit, which a ring cannot evaluate, since nobody has all values. It names nobody: here are all figures. */
    must(lupiknam_plain(file, length, values[number], inputs, plain, outputs), "plain evaluation");
    same(plain, figures[number], outputs, "plain evaluation");
    printf("round %d: the plain circuit gives", number);
    print_figures(plain);

    uint8_t *all[] = {(uint8_t *)wire, contributions, row_bytes, input_masks, sheets, externals, own_values, own_masks, own_externals,
        keys, own_keys, wire_keys, wire_externals, sheet, decoded, due, plain};
    for (size_t i = 0; i < sizeof all / sizeof all[0]; i++)
        free(all[i]);
}

int main(int count, char **given)
{
    const unsigned long n = count > 1 ? strtoul(given[1], NULL, 10) : 3, k = count > 2 ? strtoul(given[2], NULL, 10) : 16;
    if (count > 4 || n > 255 || k > 255) {
        fprintf(stderr, "usage: round [PARTIES [KEY_LENGTH [SEED]]]\n");
        return 2;
    }
    if (count > 3)
        state = strtoull(given[3], NULL, 10);
    else if (!(urandom = fopen("/dev/urandom", "rb"))) {
        perror("/dev/urandom");
        return 1;
    }

    uint8_t file[4 * WORDS];
    for (size_t i = 0; i < sizeof file; i++)
        file[i] = (uint8_t)(circuit[i / 4] >> 8 * (i % 4));

    /* A new meter is made once, and goes from garbling to garbling. A unit keeps it from run to run (host/meter_file.h), as it keeps the
       number of the next round of each circuit. */
    lupiknam_meter meter;
    lupiknam_meter_carry(0, &meter);
    for (int number = 0; number < ROUNDS; number++)
        play(file, sizeof file, (uint32_t)n, (uint32_t)k, number, &meter);
    for (int i = 0; i < ACCOUNTS; i++)
        if (meter.totals[i] > 0)
            printf("rows garbled for account %d: %u\n", i, (unsigned)meter.totals[i]);
    if (urandom)
        fclose(urandom);
    return 0;
}
