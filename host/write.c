/*
 * Writes a circuit file by the engine, for the programmer of an editor to copy: the licence split of samples/README.md, or the treasurer's
 * split, whose outputs name who may read them, listed as records, written, read back and compared.
 *
 *   write [FILE [treasurer]]
 *
 * The bytes go to FILE, or to standard output; what was done is said on standard error. The exit status is 0 where every call accepts and
 * what is read back is the same; else 1, and standard error says what was refused, in words, and at which record.
 */
#include "lupiknam.h"
#include <stdio.h>
#include <stdlib.h>
#include <string.h>

/* ---- what may go wrong */

static void give_up(const char *what)
{
    fprintf(stderr, "%s\n", what);
    exit(1);
}

static void *room(void *old, size_t bytes)
{
    void *at = realloc(old, bytes ? bytes : 1);
    if (!at)
        give_up("no memory");
    return at;
}

static void must_read(lupiknam_answer answer, const char *call)
{
    if (answer.number == 0)
        return;
    fprintf(stderr, "%s refused: %s (%u", call, lupiknam_refusal(answer.number), (unsigned)answer.number);
    if (answer.number <= 10) /* a fault of the file, and not of what is lent beside it */
        fprintf(stderr, " at word %zu", answer.place);
    fprintf(stderr, ")\n");
    exit(1);
}

/* The place of a refused writing is the index of a record, or the number of records where none of them is at fault alone; that of 22,
   which is about the buffer, is no record. */
static void must_write(lupiknam_answer answer, size_t record_count)
{
    if (answer.number == 0)
        return;
    fprintf(stderr, "writing refused: %s (%u", lupiknam_refusal(answer.number), (unsigned)answer.number);
    if (answer.number != 22 && answer.place < record_count)
        fprintf(stderr, " at record %zu", answer.place);
    else if (answer.number != 22)
        fprintf(stderr, " after the last record");
    fprintf(stderr, ")\n");
    exit(1);
}

/* ---- a list of records, as an editor keeps it */

enum { INPUT = 2, ADD = 3, SCALE = 4, MULTIPLY = 5, PROJECT = 6, SELECT = 8, OUTPUT = 10 };

struct list {
    lupiknam_record *records;
    uint8_t *tables;
    size_t count, entries; /* records, and bytes of tables */
    uint32_t wires;
};

static void add_record(struct list *list, lupiknam_record record)
{
    list->records = room(list->records, (list->count + 1) * sizeof record);
    list->records[list->count++] = record;
}

/* A record that makes a wire: returns the wire's number. */
static uint32_t add_wire(struct list *list, lupiknam_record record)
{
    add_record(list, record);
    return list->wires++;
}

static uint32_t add_input(struct list *list, uint32_t owner, uint32_t modulus)
{
    return add_wire(list, (lupiknam_record){.kind = INPUT, .owner = owner, .modulus = modulus});
}

static uint32_t add_sum(struct list *list, uint32_t a, uint32_t b)
{
    return add_wire(list, (lupiknam_record){.kind = ADD, .a = a, .b = b});
}

static uint32_t add_scale(struct list *list, uint32_t constant, uint32_t wire)
{
    return add_wire(list, (lupiknam_record){.kind = SCALE, .constant = constant, .a = wire});
}

static uint32_t add_product(struct list *list, uint32_t a, uint32_t b)
{
    return add_wire(list, (lupiknam_record){.kind = MULTIPLY, .a = a, .b = b});
}

/* The table has an image for each value of the wire; it goes after those of the projects before. */
static uint32_t add_project(struct list *list, uint32_t modulus, uint32_t wire, const uint8_t *images, size_t number)
{
    list->tables = room(list->tables, list->entries + number);
    memcpy(list->tables + list->entries, images, number);
    list->entries += number;
    return add_wire(list, (lupiknam_record){.kind = PROJECT, .modulus = modulus, .a = wire});
}

static uint32_t add_select(struct list *list, uint32_t bit, uint32_t if_0, uint32_t if_1)
{
    return add_wire(list, (lupiknam_record){.kind = SELECT, .bit = bit, .a = if_0, .b = if_1});
}

/* Who may read an output: bit s for party s, and no bit for every party. */
enum { EVERYBODY = 0 };

static uint8_t alone(int party)
{
    return (uint8_t)(1 << party);
}

static void add_output(struct list *list, uint32_t wire, uint8_t named)
{
    add_record(list, (lupiknam_record){.kind = OUTPUT, .a = wire, .named = named});
}

/* ---- the licence split and the treasurer's: samples/README.md says what the figures mean */

enum { PUBLISHERS = 5, TREASURER = 5, USES = 47, SHARES = 53, WIDE = 251, BUSY = 120, QUIET_RATE = 5, BULK_RATE = 4 };

/* The sum of all publishers' wires. */
static uint32_t add_total(struct list *list, const uint32_t *wires)
{
    uint32_t total = wires[0];
    for (int p = 1; p < PUBLISHERS; p++)
        total = add_sum(list, total, wires[p]);
    return total;
}

/* A bit: whether all uses of the month are so many that it is a busy one. The sum has space modulo 251. */
static uint32_t add_busy(struct list *list, const uint32_t *uses, const uint8_t *same)
{
    uint8_t is_busy[WIDE];
    uint32_t wide[PUBLISHERS];
    for (int p = 0; p < PUBLISHERS; p++)
        wide[p] = add_project(list, WIDE, uses[p], same, USES);
    for (int total = 0; total < WIDE; total++)
        is_busy[total] = total >= BUSY;
    return add_project(list, 2, add_total(list, wide), is_busy, WIDE);
}

/* A unit for each five uses begun. */
static void add_units(struct list *list, const uint32_t *uses, uint32_t *units)
{
    uint8_t begun[USES];
    for (int count = 0; count < USES; count++)
        begun[count] = (uint8_t)((count + 4) / 5);
    for (int p = 0; p < PUBLISHERS; p++)
        units[p] = add_project(list, SHARES, uses[p], begun, USES);
}

/* A publisher's units times the rate of the month. */
static void add_shares(struct list *list, uint32_t busy, const uint32_t *units, uint32_t *shares)
{
    uint32_t quiet[PUBLISHERS], bulk[PUBLISHERS];
    for (int p = 0; p < PUBLISHERS; p++)
        quiet[p] = add_scale(list, QUIET_RATE, units[p]);
    for (int p = 0; p < PUBLISHERS; p++)
        bulk[p] = add_scale(list, BULK_RATE, units[p]);
    for (int p = 0; p < PUBLISHERS; p++)
        shares[p] = add_select(list, busy, quiet[p], bulk[p]);
}

/* All units times that rate. */
static uint32_t add_pool(struct list *list, uint32_t busy, const uint32_t *units, const uint8_t *same)
{
    static const uint8_t rates[] = {QUIET_RATE, BULK_RATE};
    const uint32_t wide_units = add_project(list, WIDE, add_total(list, units), same, SHARES);
    const uint32_t rate = add_project(list, WIDE, busy, rates, sizeof rates);
    return add_product(list, wide_units, rate);
}

/* In the licence split everybody reads all figures. In the treasurer's each publisher reads its own share alone, the treasurer alone the
   pool, and everybody whether the month was busy. */
static void list_split(struct list *list, int treasurers)
{
    uint8_t same[WIDE];
    uint32_t uses[PUBLISHERS], units[PUBLISHERS], shares[PUBLISHERS], busy, pool;
    for (int number = 0; number < WIDE; number++)
        same[number] = (uint8_t)number;
    for (int p = 0; p < PUBLISHERS; p++)
        uses[p] = add_input(list, (uint32_t)p, USES);
    busy = add_busy(list, uses, same);
    add_units(list, uses, units);
    add_shares(list, busy, units, shares);
    pool = add_pool(list, busy, units, same);
    for (int p = 0; p < PUBLISHERS; p++)
        add_output(list, shares[p], treasurers ? alone(p) : EVERYBODY);
    add_output(list, pool, treasurers ? alone(TREASURER) : EVERYBODY);
    if (treasurers)
        add_output(list, busy, EVERYBODY);
}

/* ---- writing, and reading back */

/* The file of a list, with its length: a select has two words, every other record one, a table's entry one, and two are head and end. */
static uint8_t *written(const struct list *list, size_t *length)
{
    const size_t most = 4 * (2 + 2 * list->count + list->entries);
    uint8_t *file = room(NULL, most);
    uint32_t words;
    must_write(lupiknam_write(list->records, list->count, list->tables, list->entries, file, most, &words), list->count);
    fprintf(stderr, "%zu records and %zu table entries: %u words\n", list->count, list->entries, (unsigned)words);
    *length = 4 * (size_t)words;
    return file;
}

/* The list of a file, as an editor loads it: the counts give the number of records, the words of kind 7 that of the tables' entries. */
static struct list loaded(const uint8_t *file, size_t length)
{
    uint32_t wires, inputs, outputs, rows, moduli, record_keys;
    must_read(lupiknam_read(file, length, &wires, &inputs, &outputs, &rows, &moduli, &record_keys), "reading");
    struct list list = {.count = (size_t)wires + outputs, .wires = wires};
    for (size_t at = 3; at < length; at += 4)
        list.entries += file[at] >> 4 == 7;
    list.records = room(NULL, list.count * sizeof *list.records);
    list.tables = room(NULL, list.entries);
    must_read(lupiknam_records(file, length, list.records, list.count, list.tables, list.entries), "loading");
    fprintf(stderr, "%u wires, %u inputs, %u outputs, %u rows\n", (unsigned)wires, (unsigned)inputs, (unsigned)outputs, (unsigned)rows);
    return list;
}

/* Field by field: behind `named` a record has bytes that are no field, and what stands there nobody says. */
static int same_record(const lupiknam_record *x, const lupiknam_record *y)
{
    return x->kind == y->kind && x->modulus == y->modulus && x->owner == y->owner && x->constant == y->constant && x->bit == y->bit
        && x->a == y->a && x->b == y->b && x->named == y->named;
}

static void must_be_same(const struct list *found, const struct list *expected)
{
    int same = found->wires == expected->wires && found->count == expected->count && found->entries == expected->entries;
    for (size_t i = 0; same && i < found->count; i++)
        same = same_record(&found->records[i], &expected->records[i]);
    if (!same || (found->entries != 0 && memcmp(found->tables, expected->tables, found->entries) != 0))
        give_up("the list read back differs");
    fprintf(stderr, "read back: the same records and tables\n");
}

static void save(const char *path, const uint8_t *file, size_t length)
{
    FILE *to = path ? fopen(path, "wb") : stdout;
    if (!to || fwrite(file, 1, length, to) != length || fclose(to) != 0) {
        perror(path ? path : "standard output");
        exit(1);
    }
}

static void drop(struct list *list)
{
    free(list->records);
    free(list->tables);
}

int main(int count, char **given)
{
    const int treasurers = count == 3 && strcmp(given[2], "treasurer") == 0;
    if (count > 3 || (count == 3 && !treasurers)) {
        fprintf(stderr, "usage: write [FILE [treasurer]]\n");
        return 2;
    }
    struct list list = {0};
    list_split(&list, treasurers);
    size_t length;
    uint8_t *file = written(&list, &length);
    struct list back = loaded(file, length);
    must_be_same(&back, &list);
    save(count > 1 ? given[1] : NULL, file, length);
    drop(&back);
    drop(&list);
    free(file);
    return 0;
}
