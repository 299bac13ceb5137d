/*
 * A round over whole numbers, for a host programmer to copy: amounts in cents go in as bundles, are added, scaled and multiplied, and come
 * out as integers. The publishers of two rings, 0 and 1 of ring A, 2 and 3 of ring B, enter what they took in a month, and the treasurer a
 * number of months; "The cents" in samples/README.md says what the figures mean. host/round.c tells the steps of a round at length; here
 * they are as short as may be.
 *
 *   bundles [FILE [PARTIES [KEY_LENGTH [SEED]]]]
 *
 * The circuit file goes to FILE, if one is given. 5 parties and key length 16 where they are not given. Contributions are drawn from
 * /dev/urandom, or, for a test that can be made again, from SEED. The exit status is 0 where every call accepts and every figure is right,
 * 2 where the command is none of the above; else 1, and standard error says what was refused, in words, or what differs.
 */
#include "lupiknam.h"
#include <inttypes.h>
#include <stdio.h>
#include <stdlib.h>
#include <string.h>

/* A bundle of 10: every figure below must stay below the product of these primes, or it wraps around. */
enum { R = 10 };
static const uint8_t primes[R] = {2, 3, 5, 7, 11, 13, 17, 19, 23, 29};
static const uint64_t product = 6469693230;

/* What is entered, a bundle each, whose owner is the party of that number; and the figures, a bundle each. */
enum { TAKEN_0, TAKEN_1, TAKEN_2, TAKEN_3, MONTHS, ENTERED };
enum { TOTAL, FEE, ADVANCE, FIGURES };
static const uint64_t rate = 15; /* percent: the fee is in hundredths of a cent */

/*
 * Worked out by hand. The fee is 15 times the total, the advance as many times the total as there are months:
 *
 *   ring A                              ring B                              total         fee             advance
 *   4,210,375 + 1,896,040 = 6,106,415   957,284 + 2,608,518 = 3,565,802     9,672,217     145,083,255      3 times: 29,016,651
 *   105,000,000, the most, twice        105,000,000 twice                   420,000,000   6,300,000,000   12 times: 5,040,000,000
 *   0 + 0 = 0                           1 + 0 = 1                           1             15              12 times: 12
 *
 * The last is more than the circuit is made for, and shows how figures wrap around. The rings took 4,000,000,000 + 3,000,000,000 and
 * 2,000,000,000 + 1,000,000,000, in all 10,000,000,000; 15 times that is 150,000,000,000, and 12 times that 120,000,000,000. What is read
 * is less by the product, by 23 times the product and by 18 times the product: 3,530,306,770, 1,197,055,710 and 3,545,521,860.
 */
enum { ROUNDS = 4 };
static const uint64_t entered[ROUNDS][ENTERED] = {
    {4210375, 1896040, 957284, 2608518, 3},
    {105000000, 105000000, 105000000, 105000000, 12},
    {0, 0, 1, 0, 12},
    {4000000000, 3000000000, 2000000000, 1000000000, 12},
};

/* The same figures by the machine's own arithmetic; with what is entered above no step of it passes 64 bits. */
static void reckon(const uint64_t *of, uint64_t *figures)
{
    figures[TOTAL] = (of[TAKEN_0] + of[TAKEN_1] + of[TAKEN_2] + of[TAKEN_3]) % product;
    figures[FEE] = rate * figures[TOTAL] % product;
    figures[ADVANCE] = figures[TOTAL] * of[MONTHS] % product;
}

/* ---- what may go wrong */

static void give_up(const char *what)
{
    fprintf(stderr, "%s\n", what);
    exit(1);
}

static void must(lupiknam_answer answer, const char *call)
{
    if (answer.number == 0)
        return;
    fprintf(stderr, "%s refused: %s (%u at %zu)\n", call, lupiknam_refusal(answer.number), (unsigned)answer.number, answer.place);
    exit(1);
}

static void *room(size_t bytes)
{
    void *at = calloc(bytes ? bytes : 1, 1);
    if (!at)
        give_up("no memory");
    return at;
}

/* ---- the circuit file: docs/FILE.md says how words are laid out */

enum { MOST_WORDS = 160, HEAD = 0x10000000, INPUT = 0x20000000 };
static const uint32_t OUTPUT = 0xA0000000, END = 0xB0000000;

struct circuit {
    uint8_t file[4 * MOST_WORDS];
    size_t length;
    uint32_t wires; /* made so far, and so the number of the next */
};

static void put_word(struct circuit *c, uint32_t word)
{
    if (c->length == sizeof c->file)
        give_up("no space for the circuit");
    for (int byte = 0; byte < 4; byte++)
        c->file[c->length++] = (uint8_t)(word >> 8 * byte);
}

/* Counts the words and the wires of a bundle that was just laid down, and returns its first wire. */
static uint32_t made(struct circuit *c, uint32_t words_more)
{
    const uint32_t first = c->wires;
    c->length += 4 * (size_t)words_more;
    c->wires += R;
    return first;
}

static uint32_t add_inputs(struct circuit *c, uint32_t owner)
{
    for (int i = 0; i < R; i++)
        put_word(c, INPUT | owner << 16 | primes[i]);
    return made(c, 0);
}

/* A part is written where the file ends so far, at the next wire. Here it may take all the space that is left. */
static uint32_t add_sum(struct circuit *c, uint32_t a, uint32_t b)
{
    uint32_t words = 0;
    must(lupiknam_bundle_add(R, c->wires, a, b, c->file + c->length, sizeof c->file - c->length, &words), "adding");
    return made(c, words);
}

static uint32_t add_scaled(struct circuit *c, uint64_t constant, uint32_t a)
{
    uint32_t words = 0;
    must(lupiknam_bundle_scale(R, c->wires, constant, a, c->file + c->length, sizeof c->file - c->length, &words), "scaling");
    return made(c, words);
}

static uint32_t add_product(struct circuit *c, uint32_t a, uint32_t b)
{
    uint32_t words = 0;
    must(lupiknam_bundle_multiply(R, c->wires, a, b, c->file + c->length, sizeof c->file - c->length, &words), "multiplying");
    return made(c, words);
}

/* The residues of a figure, as the parties decode them, stand together and in the order of the primes. */
static void add_outputs(struct circuit *c, uint32_t first)
{
    for (uint32_t i = 0; i < R; i++)
        put_word(c, OUTPUT | (first + i));
}

static void build(struct circuit *c)
{
    uint32_t bundle[ENTERED], ring_a, ring_b, figure[FIGURES];
    put_word(c, HEAD);
    for (uint32_t owner = 0; owner < ENTERED; owner++)
        bundle[owner] = add_inputs(c, owner);
    ring_a = add_sum(c, bundle[TAKEN_0], bundle[TAKEN_1]);
    ring_b = add_sum(c, bundle[TAKEN_2], bundle[TAKEN_3]);
    figure[TOTAL] = add_sum(c, ring_a, ring_b);
    figure[FEE] = add_scaled(c, rate, figure[TOTAL]);
    figure[ADVANCE] = add_product(c, figure[TOTAL], bundle[MONTHS]);
    for (int f = 0; f < FIGURES; f++)
        add_outputs(c, figure[f]);
    put_word(c, END);
}

static void save(const char *path, const struct circuit *c)
{
    FILE *to = fopen(path, "wb");
    if (!to || fwrite(c->file, 1, c->length, to) != c->length || fclose(to) != 0) {
        perror(path);
        exit(1);
    }
}

/* ---- drawing contributions, as in host/round.c */

static FILE *urandom;  /* where no seed is given */
static uint64_t state; /* else: splitmix64, which is for tests and is no source of keys */

static uint8_t random_byte(void)
{
    if (urandom) {
        int byte = fgetc(urandom);
        if (byte == EOF)
            give_up("/dev/urandom: no byte");
        return (uint8_t)byte;
    }
    uint64_t z = state += 0x9E3779B97F4A7C15u;
    z = (z ^ z >> 30) * 0xBF58476D1CE4E5B9u;
    z = (z ^ z >> 27) * 0x94D049BB133111EBu;
    return (uint8_t)(z >> 56);
}

static uint8_t below(unsigned modulus)
{
    unsigned byte;
    do
        byte = random_byte();
    while (byte >= 256 - 256 % modulus);
    return (uint8_t)(byte % modulus);
}

/* The offsets: the moduli are those of a bundle, and there is no other. One that is all zero is drawn again. */
static uint8_t *draw_offsets(uint8_t *at, size_t k)
{
    for (int i = 0; i < R; i++, at += k)
        for (int zero = 1; zero && k > 0;)
            for (size_t byte = 0; byte < k; byte++)
                zero &= (at[byte] = below(primes[i])) == 0;
    return at;
}

/* The records. All wires are of bundles, one after another, so that a wire's modulus goes by its number. */
static uint8_t *draw_records(uint8_t *at, size_t k, const uint8_t *keys, uint32_t wires)
{
    for (uint32_t w = 0; w < wires; w++)
        for (size_t i = 0; i < (k + 1) * keys[w]; i++)
            *at++ = below(primes[w % R]);
    return at;
}

/* ---- a round */

enum { ACCOUNT = 0 }; /* that of both rings, which all garblings are charged to */

struct round {
    const uint8_t *file;
    size_t length;
    uint32_t n, k, number;
    uint32_t wires, inputs, outputs, rows, moduli, record_keys; /* as lupiknam_read counts them */
    size_t contribution_length, row_length, rows_length, keys_length, sheets_length;
    uint8_t *keys_of; /* the keys in each wire's record */
    uint8_t *contributions, *row_bytes, *input_masks, *sheets, *values, *externals, *keys, *own_keys, *wire_keys, *wire_externals;
    uint8_t *decoded;
};

/* One key for an input, a project and a square, two for another product, none for an add, a scale and a bit times itself. */
static uint8_t keys_in_record(const lupiknam_record *of, uint8_t modulus)
{
    const int square = of->kind == 5 && of->a == of->b;
    if (of->kind == 3 || of->kind == 4 || (square && modulus == 2))
        return 0;
    return of->kind == 5 && !square ? 2 : 1;
}

/* By the records of the file; a wire's modulus goes by its number, as in drawing. */
static void list_keys(struct round *r)
{
    size_t entries = 0;
    for (size_t at = 3; at < r->length; at += 4)
        entries += r->file[at] >> 4 == 7;
    lupiknam_record *records = room((r->wires + r->outputs) * sizeof *records);
    uint8_t *tables = room(entries);
    must(lupiknam_records(r->file, r->length, records, r->wires + r->outputs, tables, entries), "loading");
    for (uint32_t w = 0; w < r->wires; w++)
        r->keys_of[w] = keys_in_record(&records[w], primes[w % R]);
    free(records);
    free(tables);
}

static void prepare(struct round *r, const struct circuit *c, uint32_t n, uint32_t k)
{
    r->file = c->file, r->length = c->length, r->n = n, r->k = k;
    must(lupiknam_read(r->file, r->length, &r->wires, &r->inputs, &r->outputs, &r->rows, &r->moduli, &r->record_keys), "reading");
    r->contribution_length = (size_t)k * r->moduli + ((size_t)k + 1) * r->record_keys;
    r->row_length = (size_t)n * k;
    r->rows_length = r->rows * r->row_length;
    r->keys_length = r->inputs * r->row_length;
    r->sheets_length = (size_t)n * r->outputs;
    r->keys_of = room(r->wires);
    r->contributions = room(n * r->contribution_length);
    r->row_bytes = room(r->rows_length);
    r->input_masks = room(r->inputs);
    r->sheets = room(r->sheets_length);
    r->values = room(r->inputs);
    r->externals = room(r->inputs);
    r->keys = room(r->keys_length);
    r->own_keys = room((size_t)r->inputs * k);
    r->wire_keys = room(r->wires * r->row_length);
    r->wire_externals = room(r->wires);
    r->decoded = room(r->outputs);
    list_keys(r);
}

static void drop(struct round *r)
{
    uint8_t *all[] = {r->keys_of, r->contributions, r->row_bytes, r->input_masks, r->sheets, r->values, r->externals, r->keys,
        r->own_keys, r->wire_keys, r->wire_externals, r->decoded};
    for (size_t i = 0; i < sizeof all / sizeof all[0]; i++)
        free(all[i]);
}

/* Each party draws its contribution; whoever garbles has all of them. */
static void garble(struct round *r, lupiknam_meter *meter)
{
    uint8_t *at = r->contributions;
    for (uint32_t party = 0; party < r->n; party++)
        at = draw_records(draw_offsets(at, r->k), r->k, r->keys_of, r->wires);
    if (at != r->contributions + r->n * r->contribution_length)
        give_up("drawing: the length differs");
    must(lupiknam_garble(r->file, r->length, r->n, r->k, r->number, ACCOUNT, r->contributions, r->n * r->contribution_length, r->row_bytes,
             r->rows_length, r->input_masks, r->inputs, r->sheets, r->sheets_length, meter), "garbling");
}

/* A party splits its integer: the residues are the values of its inputs, which are the wires of one bundle. */
static void enter(struct round *r, uint32_t party, uint64_t integer)
{
    uint8_t *values = r->values + party * R, *masks = r->input_masks + party * R, *externals = r->externals + party * R;
    must(lupiknam_bundle_split(R, integer, values, R), "splitting");
    must(lupiknam_externals(r->file, r->length, r->n, party, values, R, masks, R, externals, R), "external values");
}

static void make_keys(struct round *r, uint32_t party)
{
    const size_t own_length = (size_t)r->inputs * r->k;
    must(lupiknam_input_keys(r->file, r->length, r->n, r->k, party, r->contributions + party * r->contribution_length,
             r->contribution_length, r->externals, r->inputs, r->own_keys, own_length), "input keys");
    for (uint32_t w = 0; w < r->inputs; w++)
        memcpy(r->keys + w * r->row_length + party * r->k, r->own_keys + w * r->k, r->k);
}

/* Each party has its own sheet of the output masks. No output here names a party, so that every sheet has all masks. */
static void open_and_decode(struct round *r, uint32_t party)
{
    const uint8_t *sheet = r->sheets + (size_t)party * r->outputs;
    must(lupiknam_open(r->file, r->length, r->n, r->k, party, r->number, r->contributions + party * r->contribution_length,
             r->contribution_length, r->externals, r->inputs, r->keys, r->keys_length, r->row_bytes, r->rows_length, r->wire_keys,
             r->wires * r->row_length, r->wire_externals, r->wires), "opening");
    must(lupiknam_decode(r->file, r->length, r->n, party, r->wire_externals, r->wires, sheet, r->outputs, r->decoded, r->outputs),
        "decoding");
}

/* Joins the residues of each figure, sets the integers beside those reckoned, and prints them. */
static void show(const struct round *r, const char *who)
{
    uint64_t figures[FIGURES], due[FIGURES];
    for (int f = 0; f < FIGURES; f++)
        must(lupiknam_bundle_join(R, r->decoded + f * R, R, &figures[f]), "joining");
    reckon(entered[r->number], due);
    if (memcmp(figures, due, sizeof due) != 0) {
        fprintf(stderr, "round %u: %s other figures than are due\n", (unsigned)r->number, who);
        exit(1);
    }
    printf("round %u: %s total %" PRIu64 ", fee %" PRIu64 ", advance %" PRIu64 "\n", (unsigned)r->number, who, figures[TOTAL],
        figures[FEE], figures[ADVANCE]);
}

static void play(struct round *r, lupiknam_meter *meter)
{
    char who[32];
    garble(r, meter);
    for (uint32_t party = 0; party < ENTERED; party++)
        enter(r, party, entered[r->number][party]);
    for (uint32_t party = 0; party < r->n; party++)
        make_keys(r, party);
    for (uint32_t party = 0; party < r->n; party++) {
        open_and_decode(r, party);
        snprintf(who, sizeof who, "party %u reads", (unsigned)party);
        show(r, who);
    }
    must(lupiknam_plain(r->file, r->length, r->values, r->inputs, r->decoded, r->outputs), "plain evaluation");
    show(r, "the plain circuit gives");
}

int main(int count, char **given)
{
    const unsigned long n = count > 2 ? strtoul(given[2], NULL, 10) : 5, k = count > 3 ? strtoul(given[3], NULL, 10) : 16;
    if (count > 5 || n > 255 || k > 255) {
        fprintf(stderr, "usage: bundles [FILE [PARTIES [KEY_LENGTH [SEED]]]]\n");
        return 2;
    }
    if (count > 4)
        state = strtoull(given[4], NULL, 10);
    else if (!(urandom = fopen("/dev/urandom", "rb"))) {
        perror("/dev/urandom");
        return 1;
    }

    static struct circuit circuit;
    build(&circuit);
    if (count > 1)
        save(given[1], &circuit);

    struct round round = {0};
    lupiknam_meter meter;
    lupiknam_meter_carry(0, &meter);
    prepare(&round, &circuit, (uint32_t)n, (uint32_t)k);
    for (round.number = 0; round.number < ROUNDS; round.number++)
        play(&round, &meter);
    printf("rows garbled: %u\n", (unsigned)meter.totals[ACCOUNT]);
    drop(&round);
    if (urandom)
        fclose(urandom);
    return 0;
}
