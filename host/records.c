/*
 * What lupiknam_write and lupiknam_records answer, from C: the file of cases/price_sheet/every_kind.in as records, written and read back,
 * also with each choice of parties that its output can name, and each refusal that a record can meet, with its place. A refused call must
 * leave every byte and number as it was. Prints what is not so; the exit status is 0 where there is nothing to print.
 */
#include "lupiknam.h"
#include <stdio.h>
#include <string.h>

/* docs/FILE.md shows these two lists, and host/run compares them. */
static const lupiknam_record circuit[] = {
    {.kind = 2, .owner = 0, .modulus = 2},     /* wire 0: input of party 0, modulus 2                */
    {.kind = 2, .owner = 1, .modulus = 3},     /* wire 1: input of party 1, modulus 3                */
    {.kind = 3, .a = 1, .b = 1},               /* wire 2: wire 1 + wire 1                            */
    {.kind = 4, .constant = 2, .a = 2},        /* wire 3: 2 times wire 2                             */
    {.kind = 5, .a = 3, .b = 1},               /* wire 4: wire 3 times wire 1                        */
    {.kind = 6, .modulus = 5, .a = 0},         /* wire 5: wire 0 by a table, output modulus 5        */
    {.kind = 8, .bit = 0, .a = 1, .b = 4},     /* wire 6: wire 1 where wire 0 is 0, wire 4 where 1   */
    {.kind = 10, .a = 6, .named = 2},          /* output: wire 6, for party 1 alone                  */
};
static const uint8_t tables[] = {4, 3};        /* of wire 5: the images of 0 and 1                   */

static const uint32_t expected[] = {0x10000000, 0x20000002, 0x20010003, 0x30000401, 0x40000802, 0x50000C01, 0x60001400, 0x70000004,
    0x70000003, 0x80000000, 0x90000404, 0xA0000806, 0xB0000000};

enum { COUNT = sizeof circuit / sizeof circuit[0], ENTRIES = sizeof tables, WORDS = sizeof expected / sizeof expected[0] };
enum { LENGTH = 4 * WORDS, FILL = 0x55 };

static int failed = 0;

static void check(int holds, const char *what)
{
    if (holds)
        return;
    printf("failed: %s\n", what);
    failed = 1;
}

static int all_fill(const void *from, size_t length)
{
    const uint8_t *byte = from;
    while (length > 0)
        if (byte[--length] != FILL)
            return 0;
    return 1;
}

/* ---- writing */

static uint8_t file[LENGTH + 8];

/* Writes into a buffer of this length: the answer must be this one, and where it is a refusal nothing is written. */
static void writes(const char *what, const lupiknam_record *records, size_t count, const uint8_t *entries, size_t number, size_t length,
    uint32_t refusal, size_t place)
{
    uint32_t words = FILL;
    memset(file, FILL, sizeof file);
    lupiknam_answer answer = lupiknam_write(records, count, entries, number, length ? file : NULL, length, &words);
    if (answer.number != refusal || answer.place != place)
        printf("%u at %zu where %u at %zu is due\n", (unsigned)answer.number, answer.place, (unsigned)refusal, place);
    check(answer.number == refusal && answer.place == place, what);
    check(words == (refusal ? FILL : WORDS), what);
    check(all_fill(file + (refusal ? 0 : LENGTH), sizeof file - (refusal ? 0 : LENGTH)), what);
    for (size_t i = 0; refusal == 0 && i < LENGTH; i++)
        check(file[i] == (uint8_t)(expected[i / 4] >> 8 * (i % 4)), what);
}

/* The circuit with another record at one place. */
struct trial {
    const char *what;
    size_t index;
    lupiknam_record record;
    uint32_t refusal;
    size_t place;
};

static const struct trial trials[] = {
    {"kind 0", 2, {.kind = 0}, 2, 2},
    {"kind 1, the head's", 0, {.kind = 1}, 2, 0},
    {"kind 7, an entry's", 6, {.kind = 7}, 2, 6},
    {"kind 9, the branches'", 6, {.kind = 9, .a = 1, .b = 4}, 2, 6},
    {"kind 11, the end's", 7, {.kind = 11}, 2, 7},
    {"kind 12", 7, {.kind = 12}, 2, 7},
    {"kind 18, whose low four bits are an input's", 0, {.kind = 18, .modulus = 2}, 2, 0},
    {"the largest kind", 3, {.kind = UINT32_MAX}, 2, 3},
    {"an input with a wire", 1, {.kind = 2, .owner = 1, .modulus = 3, .a = 1}, 2, 1},
    {"an add with a modulus", 2, {.kind = 3, .a = 1, .b = 1, .modulus = 3}, 2, 2},
    {"a project with an owner", 5, {.kind = 6, .modulus = 5, .owner = 1}, 2, 5},
    {"an output with a bit", 7, {.kind = 10, .a = 6, .bit = 1}, 2, 7},
    {"an input that names party 0", 0, {.kind = 2, .modulus = 2, .named = 1}, 2, 0},
    {"an add that names party 7", 2, {.kind = 3, .a = 1, .b = 1, .named = 128}, 2, 2},
    {"a scale that names all", 3, {.kind = 4, .constant = 2, .a = 2, .named = 255}, 2, 3},
    {"a multiply that names party 1", 4, {.kind = 5, .a = 3, .b = 1, .named = 2}, 2, 4},
    {"a project that names party 2, before modulus 4", 5, {.kind = 6, .modulus = 4, .named = 4}, 2, 5},
    {"a select that names party 3", 6, {.kind = 8, .a = 1, .b = 4, .named = 8}, 2, 6},
    {"kind 0 that names a party", 2, {.kind = 0, .named = 1}, 2, 2},
    {"names in an input that is not due", 3, {.kind = 2, .modulus = 3, .named = 1}, 2, 3},
    {"an output that names all, with a modulus", 7, {.kind = 10, .a = 6, .modulus = 2, .named = 255}, 2, 7},
    {"an output that names party 0, of no wire", 7, {.kind = 10, .a = 7, .named = 1}, 5, 7},
    {"an output that names all, whose wire's low ten bits are one", 7, {.kind = 10, .a = 1024 + 6, .named = 255}, 5, 7},
    {"a field too many in an input that is not due", 3, {.kind = 2, .modulus = 3, .b = 1}, 2, 3},
    {"an input after a gate", 3, {.kind = 2, .modulus = 3}, 3, 3},
    {"a gate after an output", 2, {.kind = 10, .a = 1}, 3, 3},
    {"modulus 4 in an input that is not due", 3, {.kind = 2, .modulus = 4}, 3, 3},
    {"modulus 4, before owner 9", 1, {.kind = 2, .owner = 9, .modulus = 4}, 4, 1},
    {"modulus 257, a prime too wide", 1, {.kind = 2, .owner = 1, .modulus = 257}, 4, 1},
    {"modulus 258, whose low eight bits are a prime", 5, {.kind = 6, .modulus = 258}, 4, 5},
    {"modulus 256, before a wire that is not there", 5, {.kind = 6, .modulus = 256, .a = 9}, 4, 5},
    {"its own wire", 4, {.kind = 5, .a = 4, .b = 1}, 5, 4},
    {"wire 1,025, whose low ten bits are a wire", 4, {.kind = 5, .a = 3, .b = 1025}, 5, 4},
    {"a wire that is not there, before constant 0", 3, {.kind = 4, .a = 3}, 5, 3},
    {"the largest wire", 5, {.kind = 6, .modulus = 5, .a = UINT32_MAX}, 5, 5},
    {"a select's branch that is its own wire", 6, {.kind = 8, .a = 1, .b = 6}, 5, 6},
    {"an output of no wire", 7, {.kind = 10, .a = 7}, 5, 7},
    {"moduli 2 and 3", 2, {.kind = 3, .a = 0, .b = 1}, 6, 2},
    {"a bit of modulus 3, before a branch that is not there", 6, {.kind = 8, .bit = 1, .a = 9, .b = 9}, 6, 6},
    {"branches of moduli 2 and 3", 6, {.kind = 8, .a = 0, .b = 4}, 6, 6},
    {"owner 8", 0, {.kind = 2, .owner = 8, .modulus = 2}, 7, 0},
    {"owner 256", 0, {.kind = 2, .owner = 256, .modulus = 2}, 7, 0},
    {"constant 0", 3, {.kind = 4, .a = 2}, 7, 3},
    {"constant 3 of modulus 3", 3, {.kind = 4, .constant = 3, .a = 2}, 7, 3},
    {"constant 258", 3, {.kind = 4, .constant = 258, .a = 2}, 7, 3},
    {"a table for modulus 3: image 4", 5, {.kind = 6, .modulus = 3}, 7, 5},
    {"a project with one entry more to come", 5, {.kind = 6, .modulus = 5, .a = 1}, 14, 5},
    {"no project for the entries", 5, {.kind = 3, .a = 1, .b = 1}, 14, COUNT},
    {"no output", 7, {.kind = 3, .a = 1, .b = 1}, 9, COUNT},
};

static void write_trials(void)
{
    lupiknam_record records[COUNT];
    for (size_t i = 0; i < sizeof trials / sizeof trials[0]; i++) {
        memcpy(records, circuit, sizeof records);
        records[trials[i].index] = trials[i].record;
        writes(trials[i].what, records, COUNT, tables, ENTRIES, sizeof file, trials[i].refusal, trials[i].place);
    }
}

static void write_edges(void)
{
    static const uint8_t too_large[] = {4, 5}, longer[] = {4, 3, 0};
    writes("a buffer of the right length", circuit, COUNT, tables, ENTRIES, LENGTH, 0, 0);
    writes("a longer buffer", circuit, COUNT, tables, ENTRIES, sizeof file, 0, 0);
    writes("a buffer one byte short", circuit, COUNT, tables, ENTRIES, LENGTH - 1, 22, 0);
    writes("no buffer", circuit, COUNT, tables, ENTRIES, 0, 22, 0);
    writes("no records", NULL, 0, NULL, 0, sizeof file, 9, 0);
    writes("no records, and entries", NULL, 0, tables, ENTRIES, 0, 9, 0);
    writes("all but the output", circuit, COUNT - 1, tables, ENTRIES, LENGTH, 9, COUNT - 1);
    writes("no table", circuit, COUNT, NULL, 0, LENGTH, 14, 5);
    writes("an entry too few", circuit, COUNT, tables, ENTRIES - 1, LENGTH, 14, 5);
    writes("an entry too many", circuit, COUNT, longer, sizeof longer, 0, 14, COUNT);
    writes("image 5 of modulus 5", circuit, COUNT, too_large, sizeof too_large, LENGTH, 7, 5);
    writes("image 5 in a table that is too short", circuit, COUNT, too_large + 1, 1, LENGTH, 7, 5);
}

/* A chain of sums in so many wires, and so many outputs of the last. */
static void write_many(const char *what, size_t wires, size_t outputs, uint32_t refusal, size_t place)
{
    static lupiknam_record many[1025 + 257];
    static uint8_t large[4 * (sizeof many / sizeof many[0] + 2)];
    uint32_t words = FILL;
    many[0] = (lupiknam_record){.kind = 2, .modulus = 251};
    for (size_t i = 1; i < wires; i++)
        many[i] = (lupiknam_record){.kind = 3, .a = (uint32_t)i - 1};
    for (size_t i = 0; i < outputs; i++)
        many[wires + i] = (lupiknam_record){.kind = 10, .a = (uint32_t)wires - 1};
    lupiknam_answer answer = lupiknam_write(many, wires + outputs, NULL, 0, large, sizeof large, &words);
    check(answer.number == refusal && answer.place == place && words == (refusal ? FILL : wires + outputs + 2), what);
}

/* ---- reading back */

/* Field by field: behind `named` a record has bytes that are no field. */
static int same_records(const lupiknam_record *x, const lupiknam_record *y, size_t count)
{
    for (; count > 0; count--, x++, y++)
        if (x->kind != y->kind || x->modulus != y->modulus || x->owner != y->owner || x->constant != y->constant || x->bit != y->bit
            || x->a != y->a || x->b != y->b || x->named != y->named)
            return 0;
    return 1;
}

/* The records of a file: the answer must be this one, and where it is a refusal nothing is written. */
static void reads(const char *what, size_t length, size_t count, size_t number, uint32_t refusal, size_t place)
{
    lupiknam_record records[COUNT + 1];
    uint8_t entries[ENTRIES + 1];
    memset(records, FILL, sizeof records);
    memset(entries, FILL, sizeof entries);
    lupiknam_answer answer = lupiknam_records(file, length, count ? records : NULL, count, number ? entries : NULL, number);
    check(answer.number == refusal && answer.place == place, what);
    if (refusal)
        check(all_fill(records, sizeof records) && all_fill(entries, sizeof entries), what);
    else
        check(same_records(records, circuit, COUNT) && memcmp(entries, tables, ENTRIES) == 0
            && all_fill(records + COUNT, sizeof records[0]) && all_fill(entries + ENTRIES, 1), what);
}

/* An output word in place of the file's own, which is the last but one. */
static void put_output(uint32_t word)
{
    for (int byte = 0; byte < 4; byte++)
        file[LENGTH - 8 + byte] = (uint8_t)(word >> 8 * byte);
}

/* Every choice of the eight parties goes into bits 17 to 10 of the output word, and comes back; the other words are as they were. */
static void names(void)
{
    lupiknam_record records[COUNT], back[COUNT];
    uint8_t entries[ENTRIES];
    for (unsigned named = 0; named < 256; named++) {
        const uint32_t word = 0xA0000006 | named << 10;
        uint32_t words = FILL;
        memcpy(records, circuit, sizeof records);
        records[COUNT - 1].named = (uint8_t)named;
        memset(file, FILL, sizeof file);
        memset(back, FILL, sizeof back);
        lupiknam_answer answer = lupiknam_write(records, COUNT, tables, ENTRIES, file, LENGTH, &words);
        check(answer.number == 0 && words == WORDS, "an output that names parties is written");
        for (size_t i = 0; i < LENGTH; i++)
            check(file[i] == (uint8_t)((i / 4 == WORDS - 2 ? word : expected[i / 4]) >> 8 * (i % 4)), "names stand in bits 17 to 10");
        answer = lupiknam_records(file, LENGTH, back, COUNT, entries, ENTRIES);
        check(answer.number == 0 && same_records(back, records, COUNT), "names come back");
    }
}

/* Bits 27 to 18 of an output word are still zero, whatever it names. */
static void bits_above_names(void)
{
    uint32_t c[6];
    writes("the circuit", circuit, COUNT, tables, ENTRIES, LENGTH, 0, 0);
    for (int bit = 18; bit < 28; bit++) {
        put_output(expected[WORDS - 2] | 1u << bit);
        reads("a bit above the names", LENGTH, COUNT, ENTRIES, 2, WORDS - 2);
        put_output(expected[WORDS - 2] | 255 << 10 | 1u << bit);
        reads("a bit above all names", LENGTH, COUNT, ENTRIES, 2, WORDS - 2);
        lupiknam_answer answer = lupiknam_read(file, LENGTH, c, c + 1, c + 2, c + 3, c + 4, c + 5);
        check(answer.number == 2 && answer.place == WORDS - 2, "reading a bit above the names");
    }
}

static void read_back(void)
{
    writes("the circuit", circuit, COUNT, tables, ENTRIES, LENGTH, 0, 0);
    reads("the records of the file", LENGTH, COUNT, ENTRIES, 0, 0);
    reads("a record too few", LENGTH, COUNT - 1, ENTRIES, 14, 0);
    reads("a record too many", LENGTH, COUNT + 1, ENTRIES, 14, 0);
    reads("an entry too few in the buffer", LENGTH, COUNT, ENTRIES - 1, 14, 0);
    reads("an entry too many in the buffer", LENGTH, COUNT, ENTRIES + 1, 14, 0);
    reads("nothing lent", LENGTH, 0, 0, 14, 0);
    reads("a file cut short", LENGTH - 4, COUNT, ENTRIES, 10, WORDS - 1);
    reads("no file", 0, COUNT, ENTRIES, 1, 0);
}

int main(void)
{
    write_edges();
    write_trials();
    write_many("1,024 wires and 256 outputs", 1024, 256, 0, 0);
    write_many("1,025 wires", 1025, 1, 8, 1024);
    write_many("257 outputs", 1, 257, 8, 257);
    read_back();
    names();
    bits_above_names();
    return failed;
}
