/*
 * What garbling and lupiknam_meter_carry do to the eight totals of a meter, from C: each account charged alone, refusals 25 and 21, where
 * 25 stands among the other checks, totals at their limit, meters carried over, and garblings one after another. The numbers of rows are
 * those that docs/HOST.md gives for each gate. A refused garbling must leave every byte and all eight totals as they were. Prints what is
 * not so; the exit status is 0 where there is nothing to print.
 */
#include "lupiknam.h"
#include <stdio.h>
#include <string.h>

enum { ACCOUNTS = 8, N = 2, K = 3, MOST_CONTRIBUTIONS = 128, MOST_ROWS = 502 * N * K, MOST_MASKS = 3, NOT_READ = 255, FILL = 0x55 };

static const uint32_t limit = 4294967295;

static int failed = 0;

static void check(int holds, const char *what, uint32_t account)
{
    if (holds)
        return;
    printf("failed: %s, account %u\n", what, (unsigned)account);
    failed = 1;
}

static int all_fill(const uint8_t *from, size_t length)
{
    while (length > 0)
        if (from[--length] != FILL)
            return 0;
    return 1;
}

/* ---- circuits, for two parties */

/* Z is the number of keys in the records; every circuit has one modulus and one output. */
struct circuit {
    uint32_t words[8];
    size_t count, inputs, z, rows;
};

/* Multiply 251 has 502 rows, select 2 has 6, project 2 has 2, the price list's product of modulus 5 has 10, and an add has none. A square of
   modulus 3 has 3, and a bit times itself, a copy, none and no key of its own. */
static const struct circuit product_251 = {{0x10000000, 0x200000FB, 0x200100FB, 0x50000001, 0xA0000002, 0xB0000000}, 6, 2, 4, 502};
static const struct circuit product_5 = {{0x10000000, 0x20000005, 0x20010005, 0x50000001, 0xA0000002, 0xB0000000}, 6, 2, 4, 10};
static const struct circuit select_2 = {
    {0x10000000, 0x20000002, 0x20000002, 0x20010002, 0x80000000, 0x90000402, 0xA0000003, 0xB0000000}, 8, 3, 6, 6};
static const struct circuit project_2 = {
    {0x10000000, 0x20010002, 0x60000800, 0x70000001, 0x70000000, 0xA0000001, 0xB0000000}, 7, 1, 2, 2};
static const struct circuit sum = {{0x10000000, 0x20000005, 0x20010005, 0x30000001, 0xA0000002, 0xB0000000}, 6, 2, 2, 0};
static const struct circuit square_3 = {{0x10000000, 0x20000003, 0x50000000, 0xA0000001, 0xB0000000}, 5, 1, 2, 3};
static const struct circuit copy_2 = {{0x10000000, 0x20000002, 0x50000000, 0xA0000001, 0xB0000000}, 5, 1, 1, 0};
static const struct circuit modulus_6 = {{0x10000000, 0x20000005, 0x20010006, 0x50000001, 0xA0000002, 0xB0000000}, 6, 2, 4, 10};
static const struct circuit owner_2 = {{0x10000000, 0x20000005, 0x20020005, 0x50000001, 0xA0000002, 0xB0000000}, 6, 2, 4, 10};

/* Outputs that name party 1, and parties 1 and 2, of which two have no second. */
static const struct circuit names_1 = {{0x10000000, 0x20000005, 0x20010005, 0x50000001, 0xA0000802, 0xB0000000}, 6, 2, 4, 10};
static const struct circuit names_2 = {{0x10000000, 0x20000005, 0x20010005, 0x50000001, 0xA0001802, 0xB0000000}, 6, 2, 4, 10};

static const struct circuit *const circuits[] = {&product_251, &product_5, &select_2, &project_2, &sum, &square_3, &copy_2};
enum { CIRCUITS = sizeof circuits / sizeof circuits[0] };

/* ---- one garbling */

/* What is wrong with a garbling, besides its account and its meter. */
enum { NINE_PARTIES = 1, NO_KEYS = 2, SHORT_ROWS = 4, LARGE_BYTE = 8, ZERO_OFFSET = 16 };

static uint8_t rows[MOST_ROWS + 8], input_masks[MOST_MASKS + 8], output_masks[8];

/* The totals, with numbers around them that no call may touch. */
static struct {
    uint32_t before[4];
    lupiknam_meter meter;
    uint32_t after[4];
} held;

static void set_meter(const uint32_t *totals)
{
    memset(&held, FILL, sizeof held);
    memcpy(held.meter.totals, totals, sizeof held.meter.totals);
}

static int holds(const uint32_t *totals)
{
    return memcmp(held.meter.totals, totals, sizeof held.meter.totals) == 0 && all_fill((const uint8_t *)held.before, sizeof held.before)
        && all_fill((const uint8_t *)held.after, sizeof held.after);
}

/* Contributions of ones: below every modulus, and no offset is zero. */
static lupiknam_answer garble(const struct circuit *c, uint32_t account, unsigned wrong)
{
    uint8_t file[4 * sizeof c->words / sizeof c->words[0]], contributions[MOST_CONTRIBUTIONS];
    const size_t contributions_length = N * (K + (K + 1) * c->z), rows_length = c->rows * N * K;
    for (size_t i = 0; i < 4 * c->count; i++)
        file[i] = (uint8_t)(c->words[i / 4] >> 8 * (i % 4));
    memset(contributions, 1, sizeof contributions);
    if (wrong & LARGE_BYTE) /* the last of party 0's offset, and the last of all */
        contributions[K - 1] = contributions[contributions_length - 1] = 251;
    if (wrong & ZERO_OFFSET) /* party 1's */
        memset(contributions + contributions_length / 2, 0, K);
    memset(rows, FILL, sizeof rows);
    memset(input_masks, FILL, sizeof input_masks);
    memset(output_masks, FILL, sizeof output_masks);
    return lupiknam_garble(file, 4 * c->count, wrong & NINE_PARTIES ? 9 : N, wrong & NO_KEYS ? 0 : K, 6, account, contributions,
        contributions_length, rows, rows_length - (wrong & SHORT_ROWS ? 1 : 0), input_masks, c->inputs, output_masks, N, &held.meter);
}

static int nothing_written(void)
{
    return all_fill(rows, sizeof rows) && all_fill(input_masks, sizeof input_masks) && all_fill(output_masks, sizeof output_masks);
}

/* The masks are sums of two shares that are 1, modulo the wire's modulus; a select's is that of its product plus that of a branch. A sheet
   is one byte here, and there are two: party 0's has no mask where the output names party 1. */
static int masks_written(const struct circuit *c)
{
    const unsigned p = c->words[1] & 255, output = c == &select_2 || c == &sum ? 4 % p : 2 % p;
    for (size_t i = 0; i < c->inputs; i++)
        if (input_masks[i] != 2 % p)
            return 0;
    return output_masks[0] == (c == &names_1 ? NOT_READ : output) && output_masks[1] == output
        && all_fill(input_masks + c->inputs, sizeof input_masks - c->inputs) && all_fill(output_masks + N, sizeof output_masks - N);
}

static int rows_written(const struct circuit *c)
{
    const size_t length = c->rows * N * K;
    return (length == 0 || !all_fill(rows, length)) && all_fill(rows + length, sizeof rows - length);
}

/* Garbles, from these totals to those: the answer must be this one. */
static void garbles(const char *what, const struct circuit *c, uint32_t account, unsigned wrong, const uint32_t *totals, uint32_t refusal,
    size_t place, const uint32_t *due)
{
    set_meter(totals);
    lupiknam_answer answer = garble(c, account, wrong);
    if (answer.number != refusal || answer.place != place)
        printf("%u at %zu where %u at %zu is due\n", (unsigned)answer.number, answer.place, (unsigned)refusal, place);
    check(answer.number == refusal && answer.place == place, what, account);
    check(holds(due), what, account);
    check(refusal ? nothing_written() : masks_written(c) && rows_written(c), what, account);
}

static void refuses(const char *what, const struct circuit *c, uint32_t account, unsigned wrong, const uint32_t *totals, uint32_t refusal,
    size_t place)
{
    garbles(what, c, account, wrong, totals, refusal, place, totals);
}

/* ---- each account alone */

static const uint32_t empty[ACCOUNTS], some[ACCOUNTS] = {100, 0, 4294900000, 7, 1, 65536, 2147483648, 31};
static const uint32_t full[ACCOUNTS] = {4294967295, 4294967295, 4294967295, 4294967295, 4294967295, 4294967295, 4294967295, 4294967295};

/* One total of eight set to another number. */
static const uint32_t *with(const uint32_t *totals, uint32_t account, uint32_t total)
{
    static uint32_t changed[4][ACCOUNTS];
    static int next;
    uint32_t *result = changed[next++ % 4];
    memcpy(result, totals, sizeof changed[0]);
    result[account] = total;
    return result;
}

static void charges_one(uint32_t account)
{
    static uint8_t first_rows[sizeof rows];
    garbles("a new meter", &product_251, account, 0, empty, 0, 0, with(empty, account, 502));
    if (account == 0)
        memcpy(first_rows, rows, sizeof rows);
    check(memcmp(first_rows, rows, sizeof rows) == 0, "the rows are the same for every account", account);
    garbles("old totals", &product_251, account, 0, some, 0, 0, with(some, account, some[account] + 502));
    garbles("no rows", &sum, account, 0, some, 0, 0, some);
    garbles("two rows", &project_2, account, 0, some, 0, 0, with(some, account, some[account] + 2));
    garbles("a square", &square_3, account, 0, some, 0, 0, with(some, account, some[account] + 3));
    garbles("a bit times itself", &copy_2, account, 0, some, 0, 0, some);
    garbles("an output for party 1", &names_1, account, 0, some, 0, 0, with(some, account, some[account] + 10));
}

/* The limit is the named account's, whatever stands in the others. */
static void limits_one(uint32_t account)
{
    garbles("ten rows to the limit", &product_5, account, 0, with(empty, account, limit - 10), 0, 0, with(empty, account, limit));
    garbles("ten rows to the limit, the others full", &product_5, account, 0, with(full, account, limit - 10), 0, 0, full);
    garbles("the others full", &product_5, account, 0, with(full, account, 0), 0, 0, with(full, account, 10));
    garbles("no rows in a full account", &sum, account, 0, full, 0, 0, full);
    garbles("a bit times itself in a full account", &copy_2, account, 0, full, 0, 0, full);
    refuses("ten rows past the limit", &product_5, account, 0, with(empty, account, limit - 9), 21, 0);
    refuses("a full account, the others empty", &product_5, account, 0, with(empty, account, limit), 21, 0);
    refuses("a full account, the others not", &project_2, account, 0, with(some, account, limit), 21, 0);
    refuses("all accounts full", &product_251, account, 0, full, 21, 0);
}

/* ---- 25, and where it stands: 1 to 10, 11, 13, 28, 14, 25, 16, 17, 21 */

static void no_account(uint32_t account)
{
    refuses("no such account", &product_5, account, 0, some, 25, 0);
    refuses("no such account, a new meter", &product_5, account, 0, empty, 25, 0);
    refuses("no such account, no rows", &sum, account, 0, full, 25, 0);
    refuses("4 before 25", &modulus_6, account, 0, some, 4, 2);
    refuses("11 before 25", &product_5, account, NINE_PARTIES, some, 11, 0);
    refuses("11 before 25", &product_5, account, NO_KEYS, some, 11, 0);
    refuses("13 before 25", &owner_2, account, 0, some, 13, 1);
    refuses("28 before 25", &names_2, account, 0, some, 28, 0);
    refuses("28 before 14 and 25", &names_2, account, SHORT_ROWS, some, 28, 0);
    refuses("14 before 25", &product_5, account, SHORT_ROWS, some, 14, 0);
    refuses("14 before all the others", &product_5, account, SHORT_ROWS | LARGE_BYTE | ZERO_OFFSET, full, 14, 0);
    refuses("25 before 16", &product_5, account, LARGE_BYTE, some, 25, 0);
    refuses("25 before 17", &product_5, account, ZERO_OFFSET, some, 25, 0);
    refuses("25 before 21", &product_5, account, 0, full, 25, 0);
    refuses("25 before 16, 17 and 21", &product_5, account, LARGE_BYTE | ZERO_OFFSET, full, 25, 0);
}

/* The other refusals of garbling charge nobody either, and come before 21. The place of 16 is the lowest byte, that of 17 the modulus. */
static void other_refusals(uint32_t account)
{
    refuses("a bad file", &modulus_6, account, 0, some, 4, 2);
    refuses("nine parties", &product_5, account, NINE_PARTIES, some, 11, 0);
    refuses("an owner that is absent", &owner_2, account, 0, some, 13, 1);
    refuses("a reader that is absent", &names_2, account, LARGE_BYTE | ZERO_OFFSET, full, 28, 0);
    refuses("a length", &product_5, account, SHORT_ROWS, some, 14, 0);
    refuses("16 before 17 and 21", &product_5, account, LARGE_BYTE | ZERO_OFFSET, full, 16, K - 1);
    refuses("17 before 21", &product_5, account, ZERO_OFFSET, full, 17, 5);
}

/* ---- carrying over */

static void carries(uint32_t total, const uint32_t *old)
{
    const uint32_t *due = with(empty, 0, total);
    set_meter(old);
    lupiknam_meter_carry(total, &held.meter);
    check(holds(due), "the old total is account 0's, and the others are 0", 0);
    const int space = total <= limit - 10;
    garbles("account 0 after carrying", &product_5, 0, 0, due, space ? 0 : 21, 0, space ? with(due, 0, total + 10) : due);
    garbles("account 7 after carrying", &product_5, 7, 0, due, 0, 0, with(due, 7, 10));
}

static void carry_all(void)
{
    static const uint32_t totals[] = {0, 1, 10, 96, 65536, 2147483648, 4294967285, 4294967286, 4294967294, 4294967295};
    for (size_t i = 0; i < sizeof totals / sizeof totals[0]; i++) {
        carries(totals[i], empty);
        carries(totals[i], some);
        carries(totals[i], full);
    }
    lupiknam_meter_carry(0, &held.meter);
    check(holds(empty), "a new meter carries 0", 0);
}

/* ---- garblings one after another */

/* Worked out by hand: a unit in the field had 4,294,966,793 rows, so that 502 more just fit. */
static const struct {
    const struct circuit *circuit;
    uint32_t account, refusal, totals[ACCOUNTS];
} steps[] = {
    {&product_5, 3, 0, {4294966793, 0, 0, 10, 0, 0, 0, 0}},
    {&product_251, 0, 0, {4294967295, 0, 0, 10, 0, 0, 0, 0}},
    {&project_2, 0, 21, {4294967295, 0, 0, 10, 0, 0, 0, 0}},
    {&sum, 0, 0, {4294967295, 0, 0, 10, 0, 0, 0, 0}},
    {&select_2, 3, 0, {4294967295, 0, 0, 16, 0, 0, 0, 0}},
    {&product_251, 7, 0, {4294967295, 0, 0, 16, 0, 0, 0, 502}},
    {&product_251, 8, 25, {4294967295, 0, 0, 16, 0, 0, 0, 502}},
    {&project_2, 3, 0, {4294967295, 0, 0, 18, 0, 0, 0, 502}},
    {&product_5, 1, 0, {4294967295, 10, 0, 18, 0, 0, 0, 502}},
    {&select_2, 0, 21, {4294967295, 10, 0, 18, 0, 0, 0, 502}},
    {&product_251, 7, 0, {4294967295, 10, 0, 18, 0, 0, 0, 1004}},
    {&select_2, 4294967295, 25, {4294967295, 10, 0, 18, 0, 0, 0, 1004}},
};

static void by_hand(void)
{
    set_meter(some);
    lupiknam_meter_carry(4294966793, &held.meter);
    for (size_t i = 0; i < sizeof steps / sizeof steps[0]; i++) {
        lupiknam_answer answer = garble(steps[i].circuit, steps[i].account, 0);
        check(answer.number == steps[i].refusal && answer.place == 0, "an answer among many", steps[i].account);
        check(holds(steps[i].totals), "the totals among many", steps[i].account);
    }
}

static uint32_t drawn(uint32_t below)
{
    static uint64_t state = 6;
    state = state * 6364136223846793005u + 1442695040888963407u;
    return (uint32_t)(state >> 33) % below;
}

/* The same by a sum for each account: its start, and the rows of the accepted garblings that named it. Two accounts start close to their
   limit, and are soon full. */
static void reckoned_apart(void)
{
    uint64_t sums[ACCOUNTS] = {limit - 5000};
    set_meter(some);
    lupiknam_meter_carry((uint32_t)sums[0], &held.meter);
    held.meter.totals[4] = (uint32_t)(sums[4] = limit - 900);
    int full_met = 0;
    for (int i = 0; i < 1000; i++) {
        const struct circuit *c = circuits[drawn(CIRCUITS)];
        const uint32_t account = drawn(10);
        const uint32_t due = account >= ACCOUNTS ? 25 : sums[account] + c->rows > limit ? 21 : 0;
        lupiknam_answer answer = garble(c, account, 0);
        check(answer.number == due && answer.place == 0, "an answer in a long run", account);
        if (due == 0)
            sums[account] += c->rows;
        full_met += due == 21;
        for (uint32_t other = 0; other < ACCOUNTS; other++)
            check(held.meter.totals[other] == sums[other], "a total in a long run", other);
    }
    check(full_met > 0, "a full account in a long run", 0);
}

int main(void)
{
    static const uint32_t odd[] = {8, 9, 15, 255, 256, 256 + 7, 65536 + 3, 2147483648, 2147483648 + 7, 4294967295};
    for (uint32_t account = 0; account < ACCOUNTS; account++) {
        charges_one(account);
        limits_one(account);
        other_refusals(account);
    }
    for (size_t i = 0; i < sizeof odd / sizeof odd[0]; i++)
        no_account(odd[i]);
    carry_all();
    by_hand();
    reckoned_apart();
    return failed;
}
