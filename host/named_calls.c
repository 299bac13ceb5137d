/*
 * What the calls of a ring do with the parties that outputs name, from C: every choice of faults around 28, of which the first in the order
 * of the checks must be the one named, with its place; names of every party in rings of every size; the sheets that garbling writes, mask by
 * mask; what decoding writes, and which bytes of a sheet it judges; whole rounds, in which each party has its own sheet alone; and that a
 * party's sheet tells nothing of what it may not read. A refused call must leave every byte and number as it was. Prints what is not so; the
 * exit status is 0 where there is nothing to print.
 */
#include "lupiknam.h"
#include <stdio.h>
#include <string.h>

enum { MOST_N = 8, K = 2, ACCOUNTS = 8, NOT_READ = 255, SLACK = 8, FILL = 0x55 };

static int failed = 0;

static void check(int holds, const char *what, unsigned of)
{
    if (holds)
        return;
    printf("failed: %s (%u)\n", what, of);
    failed = 1;
}

static int answers(lupiknam_answer answer, uint32_t number, size_t place)
{
    if (answer.number != number || answer.place != place)
        printf("%u at %zu where %u at %zu is due\n", (unsigned)answer.number, answer.place, (unsigned)number, place);
    return answer.number == number && answer.place == place;
}

static int all_fill(const uint8_t *from, size_t length)
{
    while (length > 0)
        if (from[--length] != FILL)
            return 0;
    return 1;
}

static uint32_t random_below(uint32_t bound)
{
    static uint64_t state = 9;
    state = state * 6364136223846793005u + 1442695040888963407u;
    return (uint32_t)(state >> 33) % bound;
}

/* ---- the circuit: inputs of parties 0 and 1, their sum and their product, all of modulus P; no output's index is its word or, but for
   output 2, its wire */

enum { P = 5, INPUTS = 2, WIRES = 4, OUTPUTS = 4, ROWS = 10, CONTRIBUTION = 14, MOST_WORDS = 16, FIRST_OUTPUT = 5 };

static const uint32_t output_wire[OUTPUTS] = {3, 0, 2, 3};
static uint8_t named[OUTPUTS]; /* the parties that each output names */
static uint8_t file[4 * MOST_WORDS];
static size_t file_length;

static void put(uint32_t word)
{
    for (int i = 0; i < 4; i++)
        file[file_length++] = (uint8_t)(word >> 8 * i);
}

static void lay_circuit(uint32_t second_owner, int bad_output)
{
    file_length = 0;
    put(0x10000000);
    put(0x20000000 | P);                      /* wire 0: input of party 0          */
    put(0x20000000 | second_owner << 16 | P); /* wire 1: input of party 1          */
    put(0x30000001);                          /* wire 2: wire 0 + wire 1           */
    put(0x50000001);                          /* wire 3: wire 0 times wire 1       */
    for (int o = 0; o < OUTPUTS; o++)
        put(0xA0000000 | (uint32_t)named[o] << 10 | output_wire[o]);
    if (bad_output)
        put(0xA0000000 | 1000);
    put(0xB0000000);
}

static void name(unsigned a, unsigned b, unsigned c, unsigned d)
{
    const unsigned all[OUTPUTS] = {a, b, c, d};
    for (int o = 0; o < OUTPUTS; o++)
        named[o] = (uint8_t)all[o];
    lay_circuit(1, 0);
}

static int may_read(uint32_t party, int output)
{
    return named[output] == 0 || named[output] >> party & 1;
}

/* ---- what is lent, with bytes around it that no call may touch */

struct lent {
    uint8_t bytes[256 + 2 * SLACK];
    size_t length;
};

static struct lent contributions, rows, input_masks, sheets, contribution, own_values, own_masks, own_externals, externals, own_keys, keys,
    wire_keys, wire_externals, sheet, decoded, count;
static struct lent *const all_lent[] = {&contributions, &rows, &input_masks, &sheets, &contribution, &own_values, &own_masks,
    &own_externals, &externals, &own_keys, &keys, &wire_keys, &wire_externals, &sheet, &decoded, &count};
enum { LENT = sizeof all_lent / sizeof all_lent[0] };

static uint8_t *of(struct lent *b)
{
    return b->bytes + SLACK;
}

static void blank(struct lent *b)
{
    memset(b->bytes, FILL, sizeof b->bytes);
}

static int untouched(const struct lent *b)
{
    return all_fill(b->bytes, sizeof b->bytes);
}

static int untouched_around(const struct lent *b)
{
    return all_fill(b->bytes, SLACK) && all_fill(b->bytes + SLACK + b->length, sizeof b->bytes - SLACK - b->length);
}

static uint32_t n, k, party, account;
static lupiknam_meter meter;

/* Party 0 owns wire 0, party 1 wire 1, the others nothing. */
static size_t owned(void)
{
    return party < 2 ? 1 : 0;
}

static void set_lengths(void)
{
    contributions.length = n * CONTRIBUTION;
    rows.length = ROWS * n * K;
    input_masks.length = externals.length = INPUTS;
    sheets.length = n * OUTPUTS;
    contribution.length = CONTRIBUTION;
    own_values.length = own_masks.length = own_externals.length = owned();
    own_keys.length = INPUTS * K;
    keys.length = INPUTS * n * K;
    wire_keys.length = WIRES * n * K;
    wire_externals.length = WIRES;
    sheet.length = decoded.length = OUTPUTS;
    count.length = 4;
}

/* ---- the calls that are given n */

enum call { INPUTS_OF, EXTERNALS, INPUT_KEYS, GARBLE, OPEN, DECODE, CALLS };

static lupiknam_answer make(enum call call)
{
    uint32_t found = 0x55555555;
    lupiknam_answer answer;
    switch (call) {
    case INPUTS_OF:
        answer = lupiknam_inputs_of(file, file_length, n, party, &found);
        memcpy(of(&count), &found, sizeof found);
        return answer;
    case EXTERNALS:
        return lupiknam_externals(file, file_length, n, party, of(&own_values), own_values.length, of(&own_masks), own_masks.length,
            of(&own_externals), own_externals.length);
    case INPUT_KEYS:
        return lupiknam_input_keys(file, file_length, n, k, party, of(&contribution), contribution.length, of(&externals), externals.length,
            of(&own_keys), own_keys.length);
    case GARBLE:
        return lupiknam_garble(file, file_length, n, k, 3, account, of(&contributions), contributions.length, of(&rows), rows.length,
            of(&input_masks), input_masks.length, of(&sheets), sheets.length, &meter);
    case OPEN:
        return lupiknam_open(file, file_length, n, k, party, 3, of(&contribution), contribution.length, of(&externals), externals.length,
            of(&keys), keys.length, of(&rows), rows.length, of(&wire_keys), wire_keys.length, of(&wire_externals), wire_externals.length);
    default:
        return lupiknam_decode(file, file_length, n, party, of(&wire_externals), wire_externals.length, of(&sheet), sheet.length,
            of(&decoded), decoded.length);
    }
}

/* The buffers of each call: those that it reads, then those that it writes. The count has no length to be wrong. */
static struct lent *const lent_to[CALLS][6] = {{&count}, {&own_values, &own_masks, &own_externals}, {&contribution, &externals, &own_keys},
    {&contributions, &rows, &input_masks, &sheets}, {&contribution, &externals, &keys, &rows, &wire_keys, &wire_externals},
    {&wire_externals, &sheet, &decoded}};
static const unsigned lent_count[CALLS] = {1, 3, 3, 4, 6, 3}, read_count[CALLS] = {0, 2, 2, 1, 4, 2};

/* A call that must be accepted, from blank buffers, and writes nothing around them. */
static void accepts(enum call call, const char *what, unsigned of_what)
{
    for (unsigned i = read_count[call]; i < lent_count[call]; i++)
        blank(lent_to[call][i]);
    check(answers(make(call), 0, 0), what, of_what);
    for (unsigned i = read_count[call]; i < lent_count[call]; i++)
        check(untouched_around(lent_to[call][i]), "a byte around a buffer", of_what);
}

/* ---- contributions, and the masks that they come to */

/* The offset, then of each input a key and a share, and of the product two keys and two shares. */
enum { SHARE_0 = 4, SHARE_1 = 7, SHARE_3 = 12 };

static void draw(void)
{
    for (size_t i = 0; i < n * CONTRIBUTION; i++)
        of(&contributions)[i] = (uint8_t)(i % CONTRIBUTION == 0 ? 1 + random_below(P - 1) : random_below(P));
}

static unsigned sum_of(size_t share)
{
    unsigned sum = 0;
    for (uint32_t j = 0; j < n; j++)
        sum += of(&contributions)[j * CONTRIBUTION + share];
    return sum % P;
}

static unsigned mask_of(uint32_t wire)
{
    return wire == 0 ? sum_of(SHARE_0) : wire == 1 ? sum_of(SHARE_1) : wire == 2 ? (sum_of(SHARE_0) + sum_of(SHARE_1)) % P : sum_of(SHARE_3);
}

/* Party 0's share is changed so that the sum is this one. */
static void set_sum(size_t share, unsigned sum)
{
    uint8_t *at = of(&contributions) + share;
    *at = (uint8_t)((*at + P + sum - sum_of(share)) % P);
}

/* ---- a round */

/* Every sheet has the masks that its party may read, and 255 for the others. */
static void judge_sheets(unsigned number)
{
    for (uint32_t j = 0; j < n; j++)
        for (int o = 0; o < OUTPUTS; o++)
            check(of(&sheets)[j * OUTPUTS + (size_t)o] == (may_read(j, o) ? mask_of(output_wire[o]) : NOT_READ), "a byte of a sheet", number);
}

/* What a party has: its contribution, what is its own of values and masks, and its own sheet. */
static void at_party(uint32_t j, const uint8_t *values)
{
    party = j;
    set_lengths();
    memcpy(of(&contribution), of(&contributions) + j * CONTRIBUTION, CONTRIBUTION);
    memcpy(of(&sheet), of(&sheets) + j * OUTPUTS, OUTPUTS);
    if (owned()) {
        of(&own_values)[0] = values[j];
        of(&own_masks)[0] = of(&input_masks)[j];
    }
}

static void exchange(const uint8_t *values, unsigned number)
{
    for (uint32_t j = 0; j < n; j++) {
        at_party(j, values);
        accepts(INPUTS_OF, "counting inputs", number);
        accepts(EXTERNALS, "external values", number);
        if (owned())
            of(&externals)[j] = of(&own_externals)[0];
    }
    for (uint32_t j = 0; j < n; j++) {
        at_party(j, values);
        accepts(INPUT_KEYS, "input keys", number);
        for (size_t w = 0; w < INPUTS; w++)
            memcpy(of(&keys) + (w * n + j) * K, of(&own_keys) + w * K, K);
    }
}

/* The figures are the plain circuit's where a party may read, else 255. */
static void open_at_all(const uint8_t *values, unsigned number)
{
    uint8_t plain[OUTPUTS];
    check(answers(lupiknam_plain(file, file_length, values, INPUTS, plain, OUTPUTS), 0, 0), "plain evaluation", number);
    check(plain[0] == values[0] * values[1] % P && plain[1] == values[0] && plain[2] == (values[0] + values[1]) % P && plain[3] == plain[0],
        "the plain circuit gives every output, whoever is named", number);
    for (uint32_t j = 0; j < n; j++) {
        at_party(j, values);
        accepts(OPEN, "opening", number);
        accepts(DECODE, "decoding", number);
        for (int o = 0; o < OUTPUTS; o++)
            check(of(&decoded)[o] == (may_read(j, o) ? plain[o] : NOT_READ), "a figure", number);
    }
}

static void play(unsigned number)
{
    const uint8_t values[INPUTS] = {(uint8_t)random_below(P), (uint8_t)random_below(P)};
    k = K, account = 2, party = 0;
    set_lengths();
    lupiknam_meter_carry(0, &meter);
    draw();
    accepts(GARBLE, "garbling", number);
    check(meter.totals[2] == ROWS, "names change no number of rows", number);
    judge_sheets(number);
    exchange(values, number);
    open_at_all(values, number);
}

/* Names of parties that take part: none, one, all of them, and any. */
static void name_some(void)
{
    const unsigned all = (1u << n) - 1;
    unsigned some[OUTPUTS];
    for (int o = 0; o < OUTPUTS; o++) {
        const uint32_t choice = random_below(4);
        some[o] = choice == 0 ? 0 : choice == 1 ? 1u << random_below(n) : choice == 2 ? all : random_below(all + 1);
    }
    name(some[0], some[1], some[2], some[3]);
}

static void rounds(void)
{
    for (n = 2; n <= MOST_N; n++)
        for (unsigned number = 0; number < 40; number++) {
            name_some();
            play(number);
        }
}

/* Rows, input masks and masks do not go by names: only who gets which mask does. Naming all who take part is naming nobody. */
static void names_hide_alone(void)
{
    static struct lent rows_were, masks_were, sheets_were;
    for (n = 2; n <= MOST_N; n++) {
        const unsigned all = (1u << n) - 1;
        name(0, 0, 0, 0);
        play(n);
        rows_were = rows, masks_were = input_masks, sheets_were = sheets;
        for (unsigned number = 0; number < 20; number++) {
            if (number == 0)
                name(all, all, all, all);
            else
                name_some();
            lupiknam_meter_carry(0, &meter);
            accepts(GARBLE, "garbling again", number);
            judge_sheets(number);
            check(memcmp(&rows, &rows_were, sizeof rows) == 0 && memcmp(&input_masks, &masks_were, sizeof input_masks) == 0,
                "names change no row and no input mask", number);
            check(number > 0 || memcmp(&sheets, &sheets_were, sizeof sheets) == 0, "naming all is naming nobody", n);
        }
    }
}

/* Two garblings whose masks are the same on all outputs that a party may read, and any on the others: the party has the same sheet. */
static void equal_sheets(void)
{
    unsigned apart = 0;
    for (unsigned number = 0; number < 2000; number++) {
        uint8_t sheets_were[MOST_N * OUTPUTS];
        n = 2 + number % 7, k = K, account = 0;
        const uint32_t j = random_below(n);
        name_some();
        set_lengths();
        draw();
        lupiknam_meter_carry(0, &meter);
        accepts(GARBLE, "the first garbling", number);
        memcpy(sheets_were, of(&sheets), sheets.length);
        const unsigned mask_0 = mask_of(0), mask_2 = mask_of(2), mask_3 = mask_of(3);
        draw();
        if (may_read(j, 1))
            set_sum(SHARE_0, mask_0);
        if (may_read(j, 2))
            set_sum(SHARE_1, (mask_2 + P - mask_of(0)) % P);
        if (may_read(j, 0) || may_read(j, 3))
            set_sum(SHARE_3, mask_3);
        accepts(GARBLE, "the second garbling", number);
        check(memcmp(sheets_were + j * OUTPUTS, of(&sheets) + j * OUTPUTS, OUTPUTS) == 0, "a sheet tells nothing of other outputs", number);
        apart += memcmp(sheets_were, of(&sheets), sheets.length) != 0;
    }
    check(apart > 200, "other sheets differ", apart);
}

/* ---- decoding: which bytes are judged */

static void decodes(uint32_t number, size_t place, const char *what, unsigned of_what)
{
    blank(&decoded);
    check(answers(make(DECODE), number, place), what, of_what);
    check(number == 0 ? untouched_around(&decoded) : untouched(&decoded), what, of_what);
}

/* Any byte for the mask of one output: judged where the party may read it, else passed over, and 255 is written. */
static void any_mask(int o)
{
    const uint8_t was = of(&sheet)[o];
    for (unsigned byte = 0; byte < 256; byte++) {
        const int judged = may_read(party, o), bad = judged && byte >= P;
        of(&sheet)[o] = (uint8_t)byte;
        decodes(bad ? 15 : 0, bad ? (size_t)o : 0, judged ? "a mask that is judged" : "a mask that is passed over", byte);
        if (!bad)
            check(of(&decoded)[o] == (judged ? (of(&wire_externals)[output_wire[o]] + P - byte) % P : NOT_READ), "a byte decoded", byte);
    }
    of(&sheet)[o] = was;
}

/* The external values of all wires are judged, whoever may read them; of two bytes too large the lower index is named, but for masks that
   are passed over. */
static void any_external(size_t w)
{
    const uint8_t was = of(&wire_externals)[w];
    of(&wire_externals)[w] = (uint8_t)(w % 2 ? P : 255);
    decodes(15, w, "an external value", (unsigned)w);
    for (int o = 0; o < OUTPUTS; o++) {
        const uint8_t mask_was = of(&sheet)[o];
        of(&sheet)[o] = P;
        decodes(15, may_read(party, o) && (size_t)o < w ? (size_t)o : w, "an external value and a mask", (unsigned)w);
        of(&sheet)[o] = mask_was;
    }
    of(&wire_externals)[w] = was;
}

/* All masks too large: the first that the party may read is named, and where it may read none nothing is. */
static void bad_masks(void)
{
    uint8_t were[OUTPUTS];
    int first = 0;
    while (first < OUTPUTS && !may_read(party, first))
        first++;
    memcpy(were, of(&sheet), OUTPUTS);
    memset(of(&sheet), P, OUTPUTS);
    decodes(first < OUTPUTS ? 15 : 0, first < OUTPUTS ? (size_t)first : 0, "all masks too large", named[0]);
    for (int o = 0; first == OUTPUTS && o < OUTPUTS; o++)
        check(of(&decoded)[o] == NOT_READ, "a party that may read nothing", named[o]);
    memcpy(of(&sheet), were, OUTPUTS);
}

static void decoding(void)
{
    static const uint8_t values[INPUTS] = {3, 4};
    for (unsigned number = 0; number < 60; number++) {
        n = 2 + number % 7;
        name_some();
        if (number % 4 == 0) /* one party alone reads: the others nothing */
            name(2, 2, 2, 2);
        play(number);
        for (uint32_t j = 0; j < n; j++) {
            at_party(j, values);
            for (int o = 0; o < OUTPUTS; o++)
                any_mask(o);
            for (size_t w = 0; w < WIRES; w++)
                any_external(w);
            bad_masks();
        }
    }
}

/* ---- 28 */

/* Each output names each party alone, in rings of every size: the calls that are given n refuse a party that does not take part, by the
   output's index. The other calls do not. */
static void absent(void)
{
    static const uint8_t values[INPUTS] = {1, 2};
    uint32_t c[6], words;
    lupiknam_record records[WIRES + OUTPUTS];
    for (n = 2; n <= MOST_N; n++)
        for (unsigned o = 0; o < OUTPUTS; o++)
            for (unsigned s = 0; s < MOST_N; s++) {
                unsigned names[OUTPUTS] = {0};
                name(0, 0, 0, 0);
                play(s);
                at_party(n - 1, values);
                names[o] = 1u << s | (s >= n ? 1 : 0);
                name(names[0], names[1], names[2], names[3]);
                for (enum call call = INPUTS_OF; call < CALLS; call++) {
                    lupiknam_meter_carry(0, &meter);
                    check(answers(make(call), s >= n ? 28 : 0, s >= n ? o : 0), "a party that is named", 100 * n + 10 * o + s);
                }
                check(answers(lupiknam_read(file, file_length, c, c + 1, c + 2, c + 3, c + 4, c + 5), 0, 0) && c[3] == ROWS, "reading", s);
                check(answers(lupiknam_pair_read(file, file_length, &words), 0, 0), "reading for two", s);
                check(answers(lupiknam_records(file, file_length, records, WIRES + OUTPUTS, NULL, 0), 0, 0)
                        && records[WIRES + o].named == names[o] && records[WIRES + o].a == output_wire[o], "records", s);
            }
}

/* What is wrong with a call, in the order of the checks. */
enum { BAD_OUTPUT, RANGE, PARTY, OWNER, NAME, LENGTH, NO_ACCOUNT, LARGE, FAULTS };
enum { ANY_CALL = 1 << BAD_OUTPUT | 1 << RANGE | 1 << OWNER | 1 << NAME };

static const unsigned can_have[CALLS] = {ANY_CALL | 1 << PARTY, ANY_CALL | 1 << PARTY | 1 << LENGTH | 1 << LARGE,
    ANY_CALL | 1 << PARTY | 1 << LENGTH | 1 << LARGE, ANY_CALL | 1 << LENGTH | 1 << NO_ACCOUNT | 1 << LARGE,
    ANY_CALL | 1 << PARTY | 1 << LENGTH | 1 << LARGE, ANY_CALL | 1 << PARTY | 1 << LENGTH | 1 << LARGE};

/* Lays these faults into a call that is right; `which` tells faults of one kind apart. The first output with a bad name is `which % 4`, and
   every output behind it has one too. */
static void spoil(enum call call, unsigned wrong, unsigned which)
{
    static const uint32_t no_parties[] = {5, 6, 255, 256, 4294967295}, no_numbers[] = {0, 1, 9, 256 + 5};
    for (unsigned o = 0; o < OUTPUTS; o++)
        named[o] = (uint8_t)(o >= which % 4 && wrong >> NAME & 1 ? 1 | 32u << (which + o) % 3 : o);
    lay_circuit(wrong >> OWNER & 1 ? 5 + which % 3 : 1, wrong >> BAD_OUTPUT & 1);
    if (wrong >> LENGTH & 1)
        lent_to[call][which % lent_count[call]]->length += which & 8 ? 1 : (size_t)-1;
    if (wrong >> NO_ACCOUNT & 1)
        account = 8 + which;
    if (wrong >> LARGE & 1) {
        struct lent *b = call == INPUT_KEYS || call == OPEN ? &externals : lent_to[call][0];
        of(b)[0] = (uint8_t)(which & 1 ? P : 255);
    }
    if (wrong >> PARTY & 1)
        party = no_parties[which % 5];
    if (wrong >> RANGE & 1)
        n = no_numbers[which % 4];
}

static void refuses(enum call call, unsigned wrong, unsigned which)
{
    static struct lent were[LENT], before[6];
    unsigned first = 0;
    while (!(wrong >> first & 1))
        first++;
    for (int i = 0; i < LENT; i++)
        were[i] = *all_lent[i];
    for (unsigned i = read_count[call]; i < lent_count[call]; i++)
        blank(lent_to[call][i]);
    spoil(call, wrong, which);
    for (unsigned i = 0; i < lent_count[call]; i++)
        before[i] = *lent_to[call][i];
    const lupiknam_meter meter_was = meter;
    const uint32_t numbers[FAULTS] = {5, 11, 12, 13, 28, 14, 25, call == GARBLE ? 16 : 15};
    const size_t places[FAULTS] = {FIRST_OUTPUT + OUTPUTS, 0, party, 1, which % 4, 0, 0, 0};
    check(answers(make(call), numbers[first], places[first]), "the first fault in order", 1000 * call + wrong);
    for (unsigned i = 0; i < lent_count[call]; i++)
        check(memcmp(before[i].bytes, lent_to[call][i]->bytes, sizeof before[i].bytes) == 0, "bytes of a refused call", wrong);
    check(memcmp(&meter, &meter_was, sizeof meter) == 0, "totals of a refused call", wrong);
    for (int i = 0; i < LENT; i++)
        *all_lent[i] = were[i];
    n = 5, party = 1, account = 2;
}

static void all_faults(void)
{
    static const uint8_t values[INPUTS] = {4, 2};
    n = 5;
    name(0, 1, 2, 3);
    play(0);
    at_party(1, values);
    for (enum call call = INPUTS_OF; call < CALLS; call++)
        for (unsigned wrong = 1; wrong < 1u << FAULTS; wrong++)
            for (unsigned which = 0; (wrong & ~can_have[call]) == 0 && which < 60; which++)
                refuses(call, wrong, which);
}

int main(void)
{
    rounds();
    names_hide_alone();
    equal_sheets();
    decoding();
    absent();
    all_faults();
    return failed;
}
