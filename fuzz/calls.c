/*
 * Fuzzing of the C face: a libFuzzer harness over the twenty-one calls of lupiknam.h. fuzz/run builds and runs it; docs/ROBUSTNESS.md says
 * what it can see and what it cannot.
 *
 * An input is a head, `struct head`, and a circuit file. The file is lent as it stands, or mended into one that the reader must accept, or
 * mended and then damaged in one place. Each call is made once with loose lengths and contents. The file's words are written again from
 * their records, as they are and with one fault each. The calls of bundles, which read no file, are made with the head's numbers as they
 * stand, mended, and with one fault or two; their whole answer is known. A part is also set into a circuit of its own, which is evaluated.
 * Where the circuit is accepted, n, K and party are in range and owners and the parties that outputs name take part, a whole round is
 * played, for one account of a meter with any totals or of one that was carried over; each party decodes with its own sheet of masks, and
 * again with other bytes for what it may not read. Then some of its calls are made again with one fault each, two bytes too large, or a bad
 * account besides, whose answer is known. Where the circuit has no selector and its inputs are of parties 0 and 1, a round of the two-party
 * form is played too, whose outputs name other parties once it is garbled, opened for two lists of values, with one row changed and in
 * another round, and its calls are made again with one to four faults, of which the first in the order of the checks must be named. All
 * eight totals are looked at after every garbling.
 *
 * Every buffer lies against a page that faults when it is touched; what a call only reads is lent by a mapping that faults when it is
 * written. What a call writes is filled first with 254, which is below no modulus and is not the 255 of what may not be read: so a byte that
 * an accepted call leaves out shows, and so does one that a refused call writes.
 */
#define _GNU_SOURCE
#include "lupiknam.h"
#include <stdio.h>
#include <stdlib.h>
#include <string.h>
#include <sys/mman.h>
#include <unistd.h>

enum { MOST_WIRES = 1024, MOST_OUTPUTS = 256, MOST_WORDS = 1 << 16, MOST_ROWS = 1 << 19, PRIMES = 54, NUMBERS = 29, ACCOUNTS = 8 };
enum { MOST_PARTIES = 8, NOT_READ = 255 };
enum { FILL = 254, SLACK = 256 };   /* what written buffers hold before a call, and how far around them it is looked at afterwards */
enum { MOST_PERMUTATIONS = 60000 }; /* of a round: about 20 ms; a dearer one is not played */
enum { MOST_R = 10, MOST_PART = 139 }; /* primes of a bundle, and words of a part */

static void fail(const char *what) {
    fprintf(stderr, "property broken: %s\n", what);
    abort();
}

static void check(int holds, const char *what) {
    if (!holds)
        fail(what);
}

/* ---- what an input says; numbers as they lie in memory */

enum { FAULTS = 4 };

struct fault {
    uint8_t call, kind;
    uint16_t where;
};

struct head {
    uint8_t mode;  /* 0 the file as it stands, 2 mended and damaged, 1 and 3 mended; modulo 4 */
    uint8_t lying; /* bit 0: buffers begin, not end, at a guard page; bit 1: an empty buffer is NULL; bit 2: a round's meter is carried;
                      bit 3: files are mended for two, without selectors and with owners 0 and 1 */
    uint8_t style; /* how contributions are drawn */
    uint8_t loose; /* what loose calls are filled with */
    uint32_t n, k, party, account, seed, damage, round;
    uint32_t totals[ACCOUNTS];
    struct fault faults[FAULTS];
    uint32_t r, first, a, b; /* of the calls of bundles */
    uint64_t integer;
};

static struct head head;
_Static_assert(sizeof head == 104, "fuzz/run writes heads of 104 bytes");

static uint64_t random_state;

/* splitmix64: enough for contents, which the input only seeds */
static uint32_t drawn(uint32_t below) {
    uint64_t z = random_state += 0x9E3779B97F4A7C15u;
    z = (z ^ z >> 30) * 0xBF58476D1CE4E5B9u;
    z = (z ^ z >> 27) * 0x94D049BB133111EBu;
    return (uint32_t)((z ^ z >> 31) >> 32) % below;
}

/* ---- lent memory */

struct buffer {
    size_t room, length;   /* bytes mapped, bytes lent */
    uint8_t *mine;         /* the mapping that may be written */
    const uint8_t *theirs; /* the same bytes, read only */
};

#define ROOM(bytes) {(bytes), 0, NULL, NULL}
static struct buffer file = ROOM(4 * MOST_WORDS + 4096), numbers = ROOM(4096), count = ROOM(4096), meter = ROOM(4096);
static struct buffer values = ROOM(4096), figures = ROOM(4096), input_masks = ROOM(4096), output_masks = ROOM(4096);
static struct buffer own_values = ROOM(4096), own_masks = ROOM(4096), own_externals = ROOM(4096), externals = ROOM(4096);
static struct buffer contributions = ROOM(1 << 22), contribution = ROOM(1 << 20), rows = ROOM(1 << 21);
static struct buffer own_keys = ROOM(1 << 18), keys = ROOM(1 << 21), wire_keys = ROOM(1 << 21), wire_externals = ROOM(4096);
static struct buffer decoded = ROOM(4096), records = ROOM(1 << 21), tables = ROOM(1 << 17), written_file = ROOM(1 << 19);
static struct buffer written_words = ROOM(4096), residues = ROOM(4096), integer = ROOM(4096), part = ROOM(4096), part_words = ROOM(4096);
static struct buffer pair_count = ROOM(4096), draw = ROOM(1 << 18), pair_rows = ROOM(1 << 21), pair_masks = ROOM(4096);
static struct buffer pair_keys = ROOM(1 << 18), pair_wire_keys = ROOM(1 << 18), pair_externals = ROOM(4096), pair_figures = ROOM(4096);
static struct buffer sheet = ROOM(4096); /* one party's, of those that garbling writes */

static struct buffer *const all[] = {&file, &numbers, &count, &meter, &values, &figures, &input_masks, &output_masks, &own_values,
    &own_masks, &own_externals, &externals, &contributions, &contribution, &rows, &own_keys, &keys, &wire_keys, &wire_externals, &decoded,
    &records, &tables, &written_file, &written_words, &residues, &integer, &part, &part_words, &pair_count, &draw, &pair_rows, &pair_masks,
    &pair_keys, &pair_wire_keys, &pair_externals, &pair_figures, &sheet};
enum { BUFFERS = sizeof all / sizeof all[0] };

/* Room bytes of a shared object, with a page before and after that faults. */
static uint8_t *mapped(int object, size_t room, int protection) {
    size_t page = (size_t)sysconf(_SC_PAGESIZE);
    uint8_t *around = mmap(NULL, room + 2 * page, PROT_NONE, MAP_PRIVATE | MAP_ANONYMOUS, -1, 0);
    if (around == MAP_FAILED || mmap(around + page, room, protection, MAP_SHARED | MAP_FIXED, object, 0) == MAP_FAILED) {
        perror("mmap");
        exit(2);
    }
    return around + page;
}

static void map_buffers(void) {
    for (size_t i = 0; i < BUFFERS; i++) {
        int object = memfd_create("lent", 0);
        if (object < 0 || ftruncate(object, (off_t)all[i]->room) != 0) {
            perror("memfd");
            exit(2);
        }
        all[i]->mine = mapped(object, all[i]->room, PROT_READ | PROT_WRITE);
        all[i]->theirs = mapped(object, all[i]->room, PROT_READ);
        close(object);
    }
}

static size_t start(const struct buffer *b) {
    return head.lying & 1 ? 0 : b->room - b->length;
}

/* The bytes of a buffer, for this program, or lent to be written; and lent to be read. */
static uint8_t *bytes(const struct buffer *b) {
    return b->mine + start(b);
}

static uint8_t *lent(const struct buffer *b) {
    return b->length == 0 && head.lying & 2 ? NULL : bytes(b);
}

static const uint8_t *shown(const struct buffer *b) {
    return b->length == 0 && head.lying & 2 ? NULL : b->theirs + start(b);
}

/* The bytes that a buffer's length counts in. */
static size_t unit(const struct buffer *b) {
    return b == &records ? sizeof(lupiknam_record) : 1;
}

/* A length, but no more than there is space for. */
static void set_length(struct buffer *b, size_t length) {
    b->length = length < b->room - SLACK ? length : b->room - SLACK;
    b->length -= b->length % unit(b);
}

static void set_bytes(struct buffer *b, const uint8_t *from) {
    if (b->length > 0)
        memcpy(bytes(b), from, b->length);
}

static int all_are(const uint8_t *from, const uint8_t *to, uint8_t byte) {
    while (from < to)
        if (*from++ != byte)
            return 0;
    return 1;
}

/* Where the bytes around a buffer that are looked at begin and end. */
static uint8_t *slack_start(const struct buffer *b) {
    return start(b) < SLACK ? b->mine : bytes(b) - SLACK;
}

static uint8_t *slack_end(const struct buffer *b) {
    uint8_t *end = bytes(b) + b->length, *last = b->mine + b->room;
    return last - end < SLACK ? last : end + SLACK;
}

/* ---- the circuit, as far as it is needed to judge what calls write; only of accepted files */

static lupiknam_answer reading; /* what lupiknam_read answers */

static struct {
    uint32_t wires, inputs, outputs, rows, moduli, records; /* in the order of lupiknam_read */
} counts;
static size_t entries;      /* of all tables */
static size_t first_select; /* its word; 0 where there is none */

/* The two-party form: how many rows there are, how many halves of gates, and the moduli in use, ascending. Of each row the wire that it is
   for, the wire that it is under, and the external value there. */
static uint32_t pair_total, pair_halves;
static uint8_t used_moduli[PRIMES];
static struct {
    uint16_t wire, under;
    uint8_t external;
} pair_row[MOST_ROWS];

/* The bits times themselves, which a ring has as copies of wires, and the wire of each. */
static struct {
    uint16_t wire, of;
} copied[MOST_WIRES];
static uint32_t copies;

static uint8_t primes[PRIMES], modulus[MOST_WIRES], owner[MOST_WIRES], records_of[MOST_WIRES], row_modulus[MOST_ROWS];
static uint8_t contribution_modulus[128 * PRIMES + 129 * 3 * MOST_WIRES];
static uint16_t output_wire[MOST_OUTPUTS], own_wire[MOST_WIRES];
static uint8_t named[MOST_OUTPUTS]; /* the parties that an output names, a bit each */
static uint32_t n, k, party, round_number, account, carried, opened_rows, own; /* carried: the old total that a meter is made of */

static int is_prime(unsigned m) {
    return memchr(primes, (int)m, PRIMES) != NULL && m != 0;
}

static void list_primes(void) {
    size_t found = 0;
    for (unsigned m = 2; m < 256; m++) {
        unsigned d = 2;
        while (m % d != 0)
            d++;
        if (d == m)
            primes[found++] = (uint8_t)m;
    }
    check(found == PRIMES, "54 primes");
}

static uint32_t word_at(const uint8_t *from, size_t index) {
    const uint8_t *b = from + 4 * index;
    return b[0] | (uint32_t)b[1] << 8 | (uint32_t)b[2] << 16 | (uint32_t)b[3] << 24;
}

/* A wire with its modulus, the keys in its record and its rows. */
static void list_wire(uint8_t m, uint8_t keys_in_record, uint32_t its_rows, uint32_t opened) {
    check(counts.wires < MOST_WIRES && is_prime(m) && counts.rows + its_rows < MOST_ROWS, "an accepted circuit is within its limits");
    memset(row_modulus + counts.rows, m, its_rows);
    modulus[counts.wires] = m;
    records_of[counts.wires++] = keys_in_record;
    counts.rows += its_rows;
    counts.records += keys_in_record;
    opened_rows += opened;
}

/* A half of the wire that is listed next: a row for each external value but 0 of the wire that it is under. */
static void list_half(uint32_t under) {
    check(pair_total + 256 < MOST_ROWS, "an accepted circuit is within its limits");
    for (unsigned external = 1; external < modulus[under]; external++) {
        pair_row[pair_total].wire = (uint16_t)counts.wires;
        pair_row[pair_total].under = (uint16_t)under;
        pair_row[pair_total++].external = (uint8_t)external;
    }
    pair_halves++;
}

/* A multiply of a wire by itself: of a bit a copy, with no record and no rows, else as a projection. */
static void list_square(uint32_t of) {
    const uint8_t p = modulus[of];
    if (p == 2) {
        list_wire(p, 0, 0, 0);
        copied[copies].wire = (uint16_t)(counts.wires - 1);
        copied[copies++].of = (uint16_t)of;
    } else
        list_wire(p, 1, p, 1);
}

static void list_word(uint32_t w) {
    uint8_t low = modulus[w & 1023];
    if (w >> 28 == 5)
        list_half(w >> 10 & 1023);
    if (w >> 28 == 5 || w >> 28 == 6)
        list_half(w & 1023);
    switch (w >> 28) {
    case 2:
        owner[counts.wires] = (uint8_t)(w >> 16);
        counts.inputs++;
        list_wire((uint8_t)w, 1, 0, 0);
        break;
    case 3:
    case 4:
        list_wire(low, 0, 0, 0);
        break;
    case 5:
        if ((w >> 10 & 1023) == (w & 1023))
            list_square(w & 1023);
        else
            list_wire(low, 2, 2u * low, 2);
        break;
    case 6:
        list_wire((uint8_t)(w >> 10), 1, low, 1);
        break;
    case 7:
        entries++;
        break;
    case 9: /* the second word of a select */
        list_wire(low, 3, 2u * low + 2, 2);
        break;
    case 10:
        check(counts.outputs < MOST_OUTPUTS, "an accepted circuit has at most 256 outputs");
        named[counts.outputs] = (uint8_t)(w >> 10);
        output_wire[counts.outputs++] = (uint16_t)(w & 1023);
        break;
    }
}

static void list_circuit(void) {
    memset(&counts, 0, sizeof counts);
    opened_rows = pair_total = pair_halves = copies = 0;
    entries = first_select = 0;
    for (size_t i = 1; i < file.length / 4; i++) {
        const uint32_t w = word_at(bytes(&file), i);
        if (w >> 28 == 8 && first_select == 0)
            first_select = i;
        list_word(w);
    }
    for (size_t i = 0; i < PRIMES; i++)
        if (memchr(modulus, primes[i], counts.wires))
            used_moduli[counts.moduli++] = primes[i];
}

static int may_read(uint32_t reader, size_t output) {
    return named[output] == 0 || named[output] >> reader & 1;
}

/* The first output that names a party that does not take part; the number of outputs where there is none. */
static size_t first_absent(void) {
    size_t output = 0;
    while (output < counts.outputs && (n >= MOST_PARTIES || named[output] >> n == 0))
        output++;
    return output;
}

static int owners_below(uint32_t parties) {
    for (uint32_t w = 0; w < counts.inputs; w++)
        if (owner[w] >= parties)
            return 0;
    return 1;
}

/* Lays other names into an output word of the file. Outputs are the words before the last. */
static void set_names(size_t output, uint8_t names) {
    uint8_t *word = bytes(&file) + file.length - 4 * (counts.outputs + 1 - output);
    named[output] = names;
    word[1] = (uint8_t)((word[1] & 3) | names << 2);
    word[2] = names >> 6;
}

static size_t contribution_size(void) {
    return (size_t)k * counts.moduli + (size_t)(k + 1) * counts.records;
}

/* The modulus of each byte of a contribution. */
static void list_contribution(void) {
    uint8_t *at = contribution_modulus;
    for (size_t i = 0; i < PRIMES; i++)
        if (memchr(modulus, primes[i], counts.wires)) {
            memset(at, primes[i], k);
            at += k;
        }
    for (size_t w = 0; w < counts.wires; w++) {
        memset(at, modulus[w], (size_t)(k + 1) * records_of[w]);
        at += (size_t)(k + 1) * records_of[w];
    }
    check(at == contribution_modulus + contribution_size(), "the size of a contribution");
}

static void list_own(void) {
    own = 0;
    for (uint32_t w = 0; w < counts.inputs; w++)
        if (owner[w] == party)
            own_wire[own++] = (uint16_t)w;
}

/* What the calls of bundles are given; the integer is also a scale's constant. */
static struct {
    uint32_t r, first, a, b;
    uint64_t integer;
} bundle;

/* The length that a buffer must have, and below what each of its bytes must be. A part's depends on the call; here it is that of a sum. */
static size_t exact(const struct buffer *b) {
    const size_t row = (size_t)n * k;
    return b == &numbers ? 24 : b == &count || b == &written_words || b == &part_words || b == &pair_count ? 4 : b == &integer ? 8
        : b == &meter ? sizeof(lupiknam_meter) : b == &residues ? bundle.r % (MOST_R + 1) : b == &part ? 4 * (bundle.r % (MOST_R + 1))
        : b == &records ? (counts.wires + counts.outputs) * sizeof(lupiknam_record) : b == &tables ? entries
        : b == &written_file ? file.length
        : b == &contributions ? n * contribution_size() : b == &contribution ? contribution_size()
        : b == &rows ? counts.rows * row : b == &keys ? counts.inputs * row : b == &wire_keys ? counts.wires * row
        : b == &own_keys ? (size_t)counts.inputs * k : b == &wire_externals ? counts.wires
        : b == &own_values || b == &own_masks || b == &own_externals ? own
        : b == &draw ? (size_t)k * (counts.moduli + counts.inputs) : b == &pair_rows ? (size_t)k * pair_total
        : b == &pair_keys ? (size_t)k * counts.inputs : b == &pair_wire_keys ? (size_t)k * counts.wires
        : b == &pair_externals ? counts.wires : b == &output_masks ? (size_t)n * counts.outputs
        : b == &figures || b == &sheet || b == &decoded || b == &pair_masks || b == &pair_figures ? counts.outputs : counts.inputs;
}

static unsigned modulus_at(const struct buffer *b, size_t i) {
    const size_t row = (size_t)n * k;
    return b == &contributions || b == &contribution ? contribution_modulus[i % contribution_size()]
        : b == &draw ? (i / k < counts.moduli ? used_moduli[i / k] : modulus[i / k - counts.moduli])
        : b == &pair_rows ? modulus[pair_row[i / k].wire]
        : b == &rows ? row_modulus[i / row] : b == &keys || b == &wire_keys ? modulus[i / row]
        : b == &own_keys || b == &pair_keys || b == &pair_wire_keys ? modulus[i / k]
        : b == &own_values || b == &own_masks || b == &own_externals ? modulus[own_wire[i]] : b == &residues ? primes[i]
        : b == &output_masks ? modulus[output_wire[i % counts.outputs]]
        : b == &figures || b == &sheet || b == &decoded || b == &pair_masks || b == &pair_figures ? modulus[output_wire[i]] : modulus[i];
}

/* A byte of a sheet, of all sheets, or of what is decoded from one, that stands for an output that its party may not read. */
static int hidden(const struct buffer *b, size_t i) {
    return b == &output_masks ? !may_read((uint32_t)(i / counts.outputs), i % counts.outputs)
        : (b == &sheet || b == &decoded) && !may_read(party, i);
}

/* ---- one call, and what holds of every call */

enum call { READ, INPUTS_OF, PLAIN, GARBLE, EXTERNALS, INPUT_KEYS, OPEN, DECODE, RECORDS, PAIR_READ, PAIR_GARBLE, PAIR_INPUT_KEYS,
    PAIR_OPEN, PAIR_DECODE, WRITE, SPLIT, JOIN, ADD, MULTIPLY, SCALE, CARRY, CALLS };
enum { TAKES_N = 1, TAKES_K = 2, TAKES_PARTY = 4 };
#define BITS(from, to) ((2u << (to)) - (1u << (from)))

/* What each call is given besides the file, what it writes, and with which numbers it may refuse. From WRITE on none is given a file. */
static const struct {
    const char *name;
    uint32_t given, refusals;
    struct buffer *read[4], *written[4];
} calls[CALLS] = {
    {"read", 0, BITS(1, 10), {0}, {&numbers}},
    {"inputs_of", TAKES_N | TAKES_PARTY, BITS(1, 13) | BITS(28, 28), {0}, {&count}},
    {"plain", 0, BITS(1, 10) | BITS(14, 15), {&values}, {&figures}},
    {"garble", TAKES_N | TAKES_K, BITS(1, 11) | BITS(13, 14) | BITS(16, 17) | BITS(21, 21) | BITS(25, 25) | BITS(28, 28), {&contributions},
        {&rows, &input_masks, &output_masks, &meter}},
    {"externals", TAKES_N | TAKES_PARTY, BITS(1, 15) | BITS(28, 28), {&own_values, &own_masks}, {&own_externals}},
    {"input_keys", TAKES_N | TAKES_K | TAKES_PARTY, BITS(1, 17) | BITS(28, 28), {&contribution, &externals}, {&own_keys}},
    {"open", TAKES_N | TAKES_K | TAKES_PARTY, BITS(1, 20) | BITS(28, 28), {&contribution, &externals, &keys, &rows},
        {&wire_keys, &wire_externals}},
    {"decode", TAKES_N | TAKES_PARTY, BITS(1, 15) | BITS(28, 28), {&wire_externals, &sheet}, {&decoded}},
    {"records", 0, BITS(1, 10) | BITS(14, 14), {0}, {&records, &tables}},
    {"pair_read", 0, BITS(1, 10) | BITS(26, 26), {0}, {&pair_count}},
    {"pair_garble", TAKES_K, BITS(1, 11) | BITS(13, 14) | BITS(16, 16) | BITS(21, 21) | BITS(25, 27), {&draw},
        {&pair_rows, &pair_masks, &meter}},
    {"pair_input_keys", TAKES_K, BITS(1, 11) | BITS(13, 16) | BITS(26, 27), {&draw, &values}, {&pair_keys}},
    {"pair_open", TAKES_K, BITS(1, 11) | BITS(13, 14) | BITS(18, 18) | BITS(26, 26), {&pair_keys, &pair_rows},
        {&pair_wire_keys, &pair_externals}},
    {"pair_decode", 0, BITS(1, 10) | BITS(14, 15), {&pair_externals, &pair_masks}, {&pair_figures}},
    {"write", 0, BITS(2, 9) | BITS(14, 14) | BITS(22, 22), {&records, &tables}, {&written_file, &written_words}},
    {"bundle_split", 0, BITS(14, 14) | BITS(23, 24), {0}, {&residues}},
    {"bundle_join", 0, BITS(14, 14) | BITS(23, 24), {&residues}, {&integer}},
    {"bundle_add", 0, BITS(5, 5) | BITS(8, 8) | BITS(22, 23), {0}, {&part, &part_words}},
    {"bundle_multiply", 0, BITS(5, 5) | BITS(8, 8) | BITS(22, 23), {0}, {&part, &part_words}},
    {"bundle_scale", 0, BITS(5, 5) | BITS(8, 8) | BITS(22, 24), {0}, {&part, &part_words}},
    {"meter_carry", 0, 0, {0}, {&meter}},
};

static int of_bundles(enum call c) {
    return c >= SPLIT && c <= SCALE;
}

/* Those that mind selectors and owners: not decoding. */
static int for_two(enum call c) {
    return c >= PAIR_READ && c <= PAIR_OPEN;
}

/* The rows that a garbling is charged with. */
static uint32_t rows_charged(enum call c) {
    return c == PAIR_GARBLE ? pair_total : counts.rows;
}

/* What libFuzzer is told besides its own coverage of this file: which call gave which answer, which word or record met which refusal. */
#define COUNTERS __attribute__((section("__libfuzzer_extra_counters")))
COUNTERS static uint8_t met_answer[CALLS][NUMBERS];
COUNTERS static uint8_t met_word[11][16], met_record[NUMBERS][16];
static uint64_t met[CALLS][NUMBERS], made_calls, rounds, faulty;

static lupiknam_record *record(size_t index) {
    return (lupiknam_record *)(void *)bytes(&records) + index;
}

static size_t record_count(void) {
    return records.length / sizeof(lupiknam_record);
}

#define IN(b) shown(&b), b.length
#define OUT(b) lent(&b), b.length

static lupiknam_answer call(enum call c) {
    uint32_t *u = (uint32_t *)(void *)bytes(&numbers);
    lupiknam_meter *m = (lupiknam_meter *)(void *)bytes(&meter);
    switch (c) {
    case READ:
        return lupiknam_read(IN(file), u, u + 1, u + 2, u + 3, u + 4, u + 5);
    case INPUTS_OF:
        return lupiknam_inputs_of(IN(file), n, party, (uint32_t *)(void *)bytes(&count));
    case PLAIN:
        return lupiknam_plain(IN(file), IN(values), OUT(figures));
    case GARBLE:
        return lupiknam_garble(IN(file), n, k, round_number, account, IN(contributions), OUT(rows), OUT(input_masks), OUT(output_masks), m);
    case EXTERNALS:
        return lupiknam_externals(IN(file), n, party, IN(own_values), IN(own_masks), OUT(own_externals));
    case INPUT_KEYS:
        return lupiknam_input_keys(IN(file), n, k, party, IN(contribution), IN(externals), OUT(own_keys));
    case OPEN:
        return lupiknam_open(IN(file), n, k, party, round_number, IN(contribution), IN(externals), IN(keys), IN(rows),
            OUT(wire_keys), OUT(wire_externals));
    case DECODE:
        return lupiknam_decode(IN(file), n, party, IN(wire_externals), IN(sheet), OUT(decoded));
    case PAIR_DECODE:
        return lupiknam_pair_decode(IN(file), IN(pair_externals), IN(pair_masks), OUT(pair_figures));
    case PAIR_READ:
        return lupiknam_pair_read(IN(file), (uint32_t *)(void *)bytes(&pair_count));
    case PAIR_GARBLE:
        return lupiknam_pair_garble(IN(file), k, round_number, account, IN(draw), OUT(pair_rows), OUT(pair_masks), m);
    case PAIR_INPUT_KEYS:
        return lupiknam_pair_input_keys(IN(file), k, IN(draw), IN(values), OUT(pair_keys));
    case PAIR_OPEN:
        return lupiknam_pair_open(IN(file), k, round_number, IN(pair_keys), IN(pair_rows), OUT(pair_wire_keys), OUT(pair_externals));
    case RECORDS:
        return lupiknam_records(IN(file), (lupiknam_record *)(void *)lent(&records), record_count(), OUT(tables));
    case WRITE:
        return lupiknam_write((const lupiknam_record *)(const void *)shown(&records), record_count(), IN(tables), OUT(written_file),
            (uint32_t *)(void *)bytes(&written_words));
    case SPLIT:
        return lupiknam_bundle_split(bundle.r, bundle.integer, OUT(residues));
    case JOIN:
        return lupiknam_bundle_join(bundle.r, IN(residues), (uint64_t *)(void *)bytes(&integer));
    case ADD:
        return lupiknam_bundle_add(bundle.r, bundle.first, bundle.a, bundle.b, OUT(part), (uint32_t *)(void *)bytes(&part_words));
    case MULTIPLY:
        return lupiknam_bundle_multiply(bundle.r, bundle.first, bundle.a, bundle.b, OUT(part), (uint32_t *)(void *)bytes(&part_words));
    case SCALE:
        return lupiknam_bundle_scale(bundle.r, bundle.first, bundle.integer, bundle.a, OUT(part), (uint32_t *)(void *)bytes(&part_words));
    default: /* this one answers nothing */
        lupiknam_meter_carry(carried, m);
        return (lupiknam_answer){0, 0};
    }
}

/* Of a refusal: its place is one that there is. */
static int place_fits(enum call c, lupiknam_answer a) {
    const size_t words = file.length / 4;
    size_t longest = 0;
    if (c > WRITE) /* no circuit, no place */
        return a.place == 0;
    if (c == WRITE) /* 0 and 22 name no place */
        return a.number == 0 || a.number == 22 ? a.place == 0 : a.number == 9 ? a.place == record_count()
            : a.place < record_count() + (a.number == 14);
    for (int i = 0; i < 4 && calls[c].read[i]; i++)
        longest = calls[c].read[i]->length > longest ? calls[c].read[i]->length : longest;
    switch (a.number) {
    case 12:
        return a.place == party && party >= n;
    case 13:
        return a.place < counts.inputs && owner[a.place] >= (for_two(c) ? 2 : n);
    case 15:
    case 16:
    case 18:
        return a.place < longest;
    case 26:
        return first_select > 0 && a.place == first_select;
    case 28:
        return a.place < counts.outputs && a.place == first_absent();
    case 17:
    case 27:
        return memchr(modulus, (int)a.place, counts.wires) != NULL && is_prime((unsigned)a.place);
    case 19:
        return a.place < counts.inputs;
    case 20:
        return a.place >= counts.inputs && a.place < counts.wires && records_of[a.place] > 0;
    default: /* 0, 1, 11, 14, 21 and 25 name no place */
        return a.number >= 2 && a.number <= 9 ? a.place < words : a.number == 10 ? a.place <= words : a.place == 0;
    }
}

/* 21 is for a named total that has no space, whatever the others have, and 25 for an account that there is not. */
static int account_refused(enum call c, uint32_t number, const lupiknam_meter *before) {
    return number == 21 ? account < ACCOUNTS && (uint64_t)before->totals[account] + rows_charged(c) > UINT32_MAX
        : number != 25 || account >= ACCOUNTS;
}

/* Whether a call that is lent an accepted file is past 12 and 13, with a party named that does not take part: 28 is due then, whatever else
   is wrong. */
static int reader_absent(enum call c) {
    const uint32_t given = calls[c].given;
    return given & TAKES_N && n >= 2 && n <= MOST_PARTIES && !(given & TAKES_K && (k < 1 || k > 128)) && !(given & TAKES_PARTY && party >= n)
        && owners_below(n) && first_absent() < counts.outputs;
}

/* Field by field: behind the names a record has bytes that are no field. */
static int same_records(const lupiknam_record *x, const lupiknam_record *y, size_t many) {
    for (; many > 0; many--, x++, y++)
        if (x->kind != y->kind || x->modulus != y->modulus || x->owner != y->owner || x->constant != y->constant || x->bit != y->bit
            || x->a != y->a || x->b != y->b || x->named != y->named)
            return 0;
    return 1;
}

/* What writing laid down: the reader takes it back to the same records and tables; the buffer is as it was past the words. */
static void judge_file(void) {
    static lupiknam_record back[MOST_WIRES + MOST_OUTPUTS];
    static uint8_t back_tables[1 << 17];
    const size_t length = 4 * (size_t)word_at(bytes(&written_words), 0);
    const uint8_t *from = bytes(&written_file);
    uint32_t c[6];
    check(length <= written_file.length && all_are(from + length, from + written_file.length, FILL), "nothing is written past the words");
    lupiknam_answer a = lupiknam_read(from, length, c, c + 1, c + 2, c + 3, c + 4, c + 5);
    check(a.number == 0 && c[0] + c[2] == record_count(), "the reader accepts what was written");
    a = lupiknam_records(from, length, back, record_count(), back_tables, tables.length);
    check(a.number == 0 && same_records(back, record(0), record_count()) && memcmp(back_tables, bytes(&tables), tables.length) == 0,
        "what was written reads back as it was lent");
}

static uint64_t product(void) {
    uint64_t all_of_them = 1;
    for (uint32_t i = 0; i < bundle.r; i++)
        all_of_them *= primes[i];
    return all_of_them;
}

/* The words of a part, as the header tells them. */
static uint32_t due_words[MOST_PART], due_count;

static void list_part(enum call c) {
    due_count = 0;
    for (uint32_t i = 0; bundle.r <= MOST_R && i < bundle.r; i++) {
        const uint32_t p = primes[i], constant = (uint32_t)(bundle.integer % p), a = bundle.a + i, b = bundle.b + i;
        due_words[due_count++] = c == ADD ? 3u << 28 | a << 10 | b : c == MULTIPLY ? 5u << 28 | a << 10 | b
            : constant > 0 ? 4u << 28 | constant << 10 | a : 6u << 28 | p << 10 | a;
        for (uint32_t value = 0; c == SCALE && constant == 0 && value < p; value++)
            due_words[due_count++] = 7u << 28;
    }
}

static int residues_fit(void) {
    for (uint32_t i = 0; i < bundle.r; i++)
        if (bytes(&residues)[i] >= primes[i])
            return 0;
    return 1;
}

/* What a call of bundles must answer: its checks in their order. */
static uint32_t bundle_refusal(enum call c) {
    const uint64_t r = bundle.r;
    if (r < 2 || r > MOST_R)
        return 23;
    if ((c == SPLIT || c == JOIN) && residues.length != r)
        return 14;
    if (c == JOIN ? !residues_fit() : (c == SPLIT || c == SCALE) && bundle.integer >= product())
        return 24;
    if (c == SPLIT || c == JOIN)
        return 0;
    if (bundle.a + r > bundle.first || (c != SCALE && bundle.b + r > bundle.first))
        return 5;
    return bundle.first + r > MOST_WIRES ? 8 : part.length < 4 * (size_t)due_count ? 22 : 0;
}

/* An accepted part: its words are those listed, and the buffer is as it was past them. */
static void judge_part(void) {
    const uint8_t *from = bytes(&part);
    check(word_at(bytes(&part_words), 0) == due_count, "a part has as many words as are due");
    for (size_t i = 0; i < due_count; i++)
        check(word_at(from, i) == due_words[i], "a part has the words that are due");
    check(all_are(from + 4 * (size_t)due_count, from + part.length, FILL), "nothing is written past a part's words");
}

/* An accepted split or join: the residues are those of the integer, which is below the product. */
static void judge_residues(uint64_t of) {
    check(of < product(), "an integer is below the product");
    for (uint32_t i = 0; i < bundle.r; i++)
        check(bytes(&residues)[i] == of % primes[i], "residues are those of the integer");
}

static uint64_t joined(void) {
    uint64_t found;
    memcpy(&found, bytes(&integer), sizeof found);
    return found;
}

static void judge_bundle(enum call c, uint32_t number) {
    const uint32_t due = bundle_refusal(c);
    if (number != due)
        fprintf(stderr, "%s: %u where %u is due\n", calls[c].name, (unsigned)number, (unsigned)due);
    check(number == due, "a call of bundles answers as its checks say");
    if (number == 0 && (c == SPLIT || c == JOIN))
        judge_residues(c == SPLIT ? bundle.integer : joined());
    else if (number == 0)
        judge_part();
}

/* All totals after a garbling: an accepted one adds its rows to the named account's, and no other moves. Past 2^32 none wraps around. */
static void judge_charged(enum call c, uint32_t number, const lupiknam_meter *before) {
    check(number != 0 || account < ACCOUNTS, "an accepted garbling names one of the accounts");
    for (uint32_t i = 0; i < ACCOUNTS; i++) {
        const uint64_t due = before->totals[i] + (number == 0 && i == account ? (uint64_t)rows_charged(c) : 0);
        check(word_at(bytes(&meter), i) == due, number == 0 ? "accepted rows are added to the named account's total, and to no other"
                                                            : "a refused garbling leaves all totals as they were");
    }
}

/* All totals after carrying over, whatever stood there. */
static void judge_carried(void) {
    for (uint32_t i = 0; i < ACCOUNTS; i++)
        check(word_at(bytes(&meter), i) == (i == 0 ? carried : 0), "the carried total is account 0's, and the others are 0");
}

/* After an accepted opening, whatever was lent: every party's key on a copy, and its external value, are those of its wire. */
static void judge_copies(void) {
    const size_t row = (size_t)n * k;
    for (uint32_t i = 0; i < copies; i++) {
        const size_t to = copied[i].wire, from = copied[i].of;
        check(memcmp(bytes(&wire_keys) + to * row, bytes(&wire_keys) + from * row, row) == 0, "a copy opens to the keys of its wire");
        check(bytes(&wire_externals)[to] == bytes(&wire_externals)[from], "a copy opens to the external value of its wire");
    }
}

/* A written buffer after a call: nothing around it is changed, and its bytes are as the answer says. */
static void judge_written(enum call c, const struct buffer *b, uint32_t number, const lupiknam_meter *before) {
    const uint8_t *from = bytes(b), *to = from + b->length;
    check(all_are(slack_start(b), from, FILL) && all_are(to, slack_end(b), FILL), "nothing is written around a lent buffer");
    if (c == CARRY)
        judge_carried();
    else if (b == &meter)
        judge_charged(c, number, before);
    else if (number != 0)
        check(all_are(from, to, number == 20 ? 0 : FILL), "a refused call leaves written buffers as they were, or zero after 20");
    else if (b == &numbers || b == &count || b == &records || b == &tables || b == &written_words || b == &integer || b == &part
        || b == &part_words || b == &pair_count)
        return; /* looked at where they are read */
    else if (b == &written_file)
        judge_file();
    else
        for (size_t i = 0; i < b->length; i++)
            if (hidden(b, i))
                check(from[i] == NOT_READ, "255 stands for what a party may not read");
            else
                check(from[i] < modulus_at(b, i), "what an accepted call writes is below its modulus");
}

static lupiknam_answer make(enum call c) {
    struct buffer *const *written = calls[c].written;
    lupiknam_meter before;
    memcpy(&before, bytes(&meter), sizeof before);
    for (int i = 0; i < 4 && written[i]; i++)
        memset(slack_start(written[i]), FILL, (size_t)(slack_end(written[i]) - slack_start(written[i])));
    memcpy(bytes(&meter), &before, sizeof before);
    list_part(c);
    lupiknam_answer a = call(c);
    check(a.number == 0 || (a.number < NUMBERS && calls[c].refusals >> a.number & 1), "a call answers with one of its own numbers");
    check(place_fits(c, a), "the place of an answer is one that there is");
    check(account_refused(c, a.number, &before), "an account is refused only with reason");
    if (c == READ)
        reading = a;
    if (c == WRITE)
        met_record[a.number][a.place < record_count() ? record(a.place)->kind % 16 : 0] = 1;
    else if (of_bundles(c))
        judge_bundle(c, a.number);
    else if (c < WRITE && reading.number != 0)
        check(a.number == reading.number && a.place == reading.place, "every call refuses a bad file alike");
    else if (for_two(c) && first_select > 0)
        check(a.number == 26 && a.place == first_select, "every call for two refuses a selector alike");
    else if (c < WRITE) {
        check(a.number == 0 || a.number > 10, "no call finds a fault in an accepted file");
        check(!reader_absent(c) || a.number == 28, "every call given n refuses a named party that does not take part");
    }
    met_answer[c][a.number] = 1;
    met[c][a.number]++;
    made_calls++;
    if (c < WRITE && a.number > 0 && a.number <= 10 && a.place < file.length / 4)
        met_word[a.number][word_at(bytes(&file), a.place) >> 28] = 1;
    if (c == READ && a.number == 0)
        list_circuit();
    for (int i = 0; i < 4 && written[i]; i++)
        judge_written(c, written[i], a.number, &before);
    if (c == OPEN && a.number == 0)
        judge_copies();
    return a;
}

static void must(enum call c, uint32_t number, size_t place) {
    lupiknam_answer a = make(c);
    if (a.number == number && a.place == place)
        return;
    fprintf(stderr, "%s: %u at %zu where %u at %zu is due\n", calls[c].name, (unsigned)a.number, a.place, (unsigned)number, place);
    fail("the answer is the one that is due");
}

/* ---- circuits: mended by docs/FILE.md, so that an accepted file stays as it is, or one for two, if that is asked for */

static uint32_t mended[MOST_WORDS];
static size_t mended_words;
static uint32_t made; /* wires so far */

static void put(uint32_t w) {
    mended[mended_words++] = w;
}

static void put_wire(uint32_t w, uint8_t m) {
    put(w);
    modulus[made++] = m;
}

static int mended_for_two(void) {
    return head.lying >> 3 & 1;
}

static uint8_t prime_near(uint32_t m) {
    return is_prime(m & 255) ? (uint8_t)m : primes[(m & 255) % PRIMES];
}

/* A wire of this modulus, from a wire on downwards and around; `made` where there is none. */
static uint32_t alike(uint32_t wire, uint8_t m) {
    for (uint32_t i = 0; i < made; i++) {
        uint32_t other = (wire % made + made - i) % made;
        if (modulus[other] == m)
            return other;
    }
    return made;
}

/* A pair of wires of one modulus, in bits 19 to 0. */
static uint32_t pair(uint32_t w) {
    uint32_t a = (w >> 10 & 1023) % made;
    return a << 10 | alike(w & 1023, modulus[a]);
}

/* A project and its table: the entries that follow in the input, as many as are due, and made-up ones for those that lack. */
static size_t put_project(uint32_t w, const uint8_t *from, size_t words, size_t at) {
    uint32_t wire = (w & 1023) % made;
    uint8_t to = prime_near(w >> 10), entries = modulus[wire];
    put_wire(6u << 28 | (uint32_t)to << 10 | wire, to);
    for (uint32_t value = 0; value < entries; value++) {
        uint32_t image = value * value;
        if (at < words && word_at(from, at) >> 28 == 7)
            image = word_at(from, at++) & 255;
        put(7u << 28 | image % to);
    }
    return at;
}

static size_t put_select(uint32_t w, const uint8_t *from, size_t words, size_t at) {
    uint32_t bit = alike(w & 1023, 2), branches = 0;
    if (at < words && word_at(from, at) >> 28 == 9)
        branches = word_at(from, at++);
    if (bit < made) {
        put(8u << 28 | bit);
        branches = pair(branches);
        put_wire(9u << 28 | branches, modulus[branches & 1023]);
    }
    return at;
}

/* One word, with those that belong to it; a word that is not due is left out. Returns the index of the next. */
static size_t mend_word(uint32_t w, const uint8_t *from, size_t words, size_t at, unsigned *stage, uint32_t *outputs) {
    const uint32_t kind = w >> 28;
    if (kind == 2 && *stage == 0 && made < MOST_WIRES) {
        uint8_t m = prime_near(w);
        put_wire(2u << 28 | ((w >> 16 & 255) % (mended_for_two() ? 2 : n)) << 16 | m, m);
    } else if (kind >= 3 && kind <= 8 && kind != 7 && *stage <= 1 && made > 0 && made < MOST_WIRES && mended_words < MOST_WORDS - 1024) {
        if (kind == 8 && mended_for_two())
            return at;
        *stage = 1;
        if (kind == 6)
            return put_project(w, from, words, at);
        if (kind == 8)
            return put_select(w, from, words, at);
        if (kind == 4) {
            uint32_t wire = (w & 1023) % made, p = modulus[wire], constant = w >> 10 & 255;
            put_wire(4u << 28 | (constant == 0 || constant >= p ? 1 + constant % (p - 1) : constant) << 10 | wire, (uint8_t)p);
        } else {
            uint32_t both = pair(w);
            put_wire(kind << 28 | both, modulus[both & 1023]);
        }
    } else if (kind == 10 && made > 0 && *outputs < MOST_OUTPUTS) {
        const uint32_t names = w >> 10 & 255; /* for two they are passed over */
        *stage = 2;
        ++*outputs;
        put(10u << 28 | (mended_for_two() ? names : names & ((1u << n) - 1)) << 10 | (w & 1023) % made);
    }
    return at;
}

static void mend(const uint8_t *from, size_t words) {
    unsigned stage = 0;
    uint32_t outputs = 0;
    mended_words = made = 0;
    put(1u << 28);
    for (size_t at = 1; at < words && word_at(from, at) >> 28 != 11;) {
        uint32_t w = word_at(from, at);
        at = mend_word(w, from, words, at + 1, &stage, &outputs);
    }
    if (made == 0)
        put_wire(2u << 28 | 2, 2);
    if (outputs == 0)
        put(10u << 28 | (made - 1));
    put(11u << 28);
}

/* Lays the mended words down as the file. */
static void lay_mended(size_t length) {
    set_length(&file, length);
    for (size_t i = 0; i < file.length; i++)
        bytes(&file)[i] = i / 4 < mended_words ? (uint8_t)(mended[i / 4] >> 8 * (i % 4)) : (uint8_t)head.damage;
}

/* A mended file with one damage: cut off, longer, or one word changed. */
static void read_damaged(void) {
    const size_t whole = 4 * mended_words, cut = head.faults[0].where % whole, index = head.faults[0].where % mended_words;
    if (head.damage % 4 == 0) {
        lay_mended(cut);
        must(READ, cut < 4 ? 1 : 10, cut / 4);
    } else if (head.damage % 4 == 1) {
        lay_mended(whole + 1 + head.faults[0].where % 8);
        must(READ, 10, mended_words);
    } else {
        mended[index] ^= head.damage;
        lay_mended(whole);
        lupiknam_answer a = make(READ);
        check(a.number == 0 || a.place >= index, "no fault before the damaged word");
    }
}

static void read_file(const uint8_t *data, size_t size) {
    size = size < 4 * (MOST_WORDS - 1024) ? size : 4 * (MOST_WORDS - 1024);
    if (head.mode % 4 == 0) {
        set_length(&file, size);
        set_bytes(&file, data);
        make(READ);
    } else {
        mend(data, size / 4);
        if (head.mode % 4 == 2) {
            read_damaged();
        } else {
            lay_mended(4 * mended_words);
            must(READ, 0, 0);
        }
    }
    if (reading.number != 0) {
        memset(&counts, 0, sizeof counts);
        first_select = pair_total = pair_halves = copies = 0;
    } else
        check(memcmp(bytes(&numbers), &counts, sizeof counts) == 0, "the counts are those of the file");
}

/* ---- loose calls: lengths right or nearly so or any, contents all one byte */

static uint64_t pad_permutations(void) {
    return (17 + (uint64_t)k) / 136 + (8 * (uint64_t)k + 135) / 136;
}

static int dear(void) {
    return (counts.rows + (uint64_t)n * opened_rows) * n * n * pad_permutations() > MOST_PERMUTATIONS;
}

/* Garbling has a pad for the row that is not there too; opening is made four times. */
static int dear_for_two(void) {
    return ((uint64_t)pair_total + 5 * (uint64_t)pair_halves) * pad_permutations() > MOST_PERMUTATIONS;
}

static int in_range(void) {
    return n >= 2 && n <= 8 && k >= 1 && k <= 128 && party < n;
}

static void loosen(struct buffer *b) {
    static const uint8_t contents[] = {0, 1, 2, 250, 254, 255};
    size_t right = in_range() && reading.number == 0 ? exact(b) / unit(b) : drawn(64);
    switch (head.loose & 8 ? 3 : drawn(8)) {
    case 0:
        right += 1 + drawn(4);
        break;
    case 1:
        right -= right > 0;
        break;
    case 2:
        right = drawn(4096);
        break;
    }
    set_length(b, right * unit(b));
    memset(bytes(b), in_range() && dear() ? FILL : contents[head.loose % 8 % sizeof contents], b->length);
}

static void call_loosely(void) {
    for (size_t i = 1; i < BUFFERS; i++)
        if (all[i] != &numbers && all[i] != &count && all[i] != &meter && all[i] != &written_words && all[i] != &integer
            && all[i] != &part_words && all[i] != &pair_count)
            loosen(all[i]);
    carried = ~head.totals[0]; /* another number than stands there */
    for (enum call c = INPUTS_OF; c < CALLS; c++) {
        memcpy(bytes(&meter), head.totals, sizeof head.totals);
        if (c == JOIN) /* splitting has written them */
            loosen(&residues);
        make(c);
    }
}

/* ---- writing: the file's words as records; where the file is accepted, these again with one fault each, whose answer is known */

enum { KIND, MODULUS, OWNER, CONSTANT, BIT, A, B, NAMED, FIELDS };
_Static_assert(sizeof(lupiknam_record) == FIELDS * sizeof(uint32_t), "a record is its fields, of which the last is a byte");

/* The fields that each kind of record uses, and of these the ones that not every number fits. */
static const uint8_t uses[11] = {[2] = 1 << MODULUS | 1 << OWNER, [3] = 1 << A | 1 << B, [4] = 1 << CONSTANT | 1 << A,
    [5] = 1 << A | 1 << B, [6] = 1 << MODULUS | 1 << A, [8] = 1 << BIT | 1 << A | 1 << B, [10] = 1 << A | 1 << NAMED};
enum { JUDGED = 255 & ~(1 << NAMED) };

static struct {
    lupiknam_record records[MOST_WORDS + 1024];
    uint8_t entries[MOST_WORDS + 1024];
    size_t records_taken, entries_taken;
} taken;

/* What a word adds: a record of its own, a select's branches or an entry. */
static void take_word(uint32_t w) {
    const uint32_t kind = w >> 28, high = w >> 10 & 1023, low = w & 1023;
    lupiknam_record *next = &taken.records[taken.records_taken];
    if (kind == 7) {
        taken.entries[taken.entries_taken++] = (uint8_t)w;
    } else if (kind == 9 && taken.records_taken > 0) {
        next[-1].a = high;
        next[-1].b = low;
    } else {
        const int two_wires = kind == 3 || kind == 5;
        *next = (lupiknam_record){.kind = kind, .b = two_wires ? low : 0};
        next->modulus = kind == 2 ? w & 255 : kind == 6 ? high & 255 : 0;
        next->owner = kind == 2 ? w >> 16 & 255 : 0;
        next->constant = kind == 4 ? high & 255 : 0;
        next->bit = kind == 8 ? low : 0;
        next->a = two_wires ? high : kind == 4 || kind == 6 || kind == 10 ? low : 0;
        next->named = kind == 10 ? high & 255 : 0;
        taken.records_taken++;
    }
}

static void lend_taken(void) {
    set_length(&records, taken.records_taken * sizeof(lupiknam_record));
    set_bytes(&records, (const uint8_t *)taken.records);
    set_length(&tables, taken.entries_taken);
    set_bytes(&tables, taken.entries);
    set_length(&written_file, reading.number == 0 ? file.length : drawn(4096));
}

/* The records of the file's words, up to its end word or to the word that the reader refuses. */
static void take_words(void) {
    const size_t words = file.length / 4, place = reading.place;
    const size_t stop = reading.number == 0 ? words - 1 : reading.number == 9 ? place
        : reading.number >= 2 && reading.number <= 8 ? place + 1 : words;
    taken.records_taken = taken.entries_taken = 0;
    for (size_t at = 1; at < stop; at++)
        take_word(word_at(bytes(&file), at));
    lend_taken();
}

enum { ODD_KIND, UNUSED_FIELD, ODD_FIELD, OTHER_MODULUS, OUT_OF_ORDER, NO_OUTPUT, BAD_ENTRY, FEW_ENTRIES, MANY_ENTRIES, SHORT_FILE,
    LONG_FILE, OTHER_LENGTH, OTHER_NAMES, ANY_FIELDS, WRITING_FAULTS };
COUNTERS static uint8_t met_writing[WRITING_FAULTS];

static const uint32_t wide_numbers[] = {256, 257, 258, 1024, 1025, 1 << 16 | 2, 1u << 31 | 5, UINT32_MAX};

static void set_field(size_t index, unsigned number, uint32_t value) {
    if (number == NAMED)
        record(index)->named = (uint8_t)value;
    else
        ((uint32_t *)(void *)record(index))[number] = value;
}

/* One of some fields. */
static unsigned some_field(unsigned of, unsigned from) {
    unsigned number = 1 + from % (FIELDS - 1);
    while (!(of >> number & 1))
        number = 1 + number % (FIELDS - 1);
    return number;
}

/* A field with a number that is too large for it: judged by its value, however wide that is. */
static void spoil_field(size_t index, struct fault f) {
    const unsigned number = some_field(uses[record(index)->kind] & JUDGED, f.where), by = f.where / 8;
    const uint32_t wire = index < counts.wires ? (uint32_t)index : counts.wires;
    const uint32_t limit = number == MODULUS ? 252 : number == OWNER ? 8 : number == CONSTANT ? modulus[record(index)->a] : wire;
    const uint32_t value = by & 1 ? wide_numbers[by / 2 % 8] : limit + by / 2 % 4;
    set_field(index, number, value < limit ? limit : value);
    must(WRITE, number == MODULUS ? 4 : number == OWNER || number == CONSTANT ? 7 : 5, index);
}

/* A wire that is there, but of another modulus than is due. */
static void spoil_modulus(size_t index, struct fault f) {
    const lupiknam_record *r = record(index);
    const unsigned number = r->kind == 8 && f.where & 1 ? BIT : B;
    const unsigned due = number == BIT ? 2 : modulus[r->a];
    uint32_t wire = 0;
    while (wire < index && modulus[wire] == due)
        wire++;
    if (index >= counts.wires || wire == index || (r->kind != 3 && r->kind != 5 && r->kind != 8))
        return;
    set_field(index, number, wire);
    must(WRITE, 6, index);
}

/* A record that is none, one where it is not due, or no output at all. */
static void spoil_kind(size_t index, struct fault f) {
    static const uint32_t odd[] = {0, 1, 7, 9, 11, 12, 15, 16 + 2, 256 + 3, 1u << 31 | 10, UINT32_MAX};
    if (f.kind == ODD_KIND) {
        record(index)->kind = odd[f.where / 8 % 11];
        must(WRITE, 2, index);
    } else if (f.kind == UNUSED_FIELD) {
        const unsigned number = some_field(~uses[record(index)->kind], f.where);
        set_field(index, number, 1u << f.where / 8 % (number == NAMED ? 8 : 32));
        must(WRITE, 2, index);
    } else if (f.kind == NO_OUTPUT) {
        set_length(&records, counts.wires * sizeof(lupiknam_record));
        set_bytes(&records, (const uint8_t *)taken.records);
        must(WRITE, 9, counts.wires);
    } else if (index > 0 && index + 1 < counts.wires) { /* an output among the wires */
        *record(index) = (lupiknam_record){.kind = 10};
        must(WRITE, 3, index + 1);
    }
}

/* The record of the project whose table has this entry. */
static size_t project_of(size_t entry) {
    size_t index = 0, end = 0;
    for (;; index++)
        if (record(index)->kind == 6 && entry < (end += modulus[record(index)->a]))
            return index;
}

static void spoil_tables(struct fault f) {
    if (f.kind == MANY_ENTRIES) {
        set_length(&tables, entries + 1 + f.where % 4);
        set_bytes(&tables, taken.entries);
        must(WRITE, 14, record_count());
    } else if (entries > 0) {
        const size_t entry = f.where % entries, index = project_of(entry);
        if (f.kind == FEW_ENTRIES) {
            set_length(&tables, entry);
            set_bytes(&tables, taken.entries);
            must(WRITE, 14, index);
        } else {
            const unsigned q = record(index)->modulus;
            bytes(&tables)[entry] = (uint8_t)(q + f.where / 8 % (256 - q));
            must(WRITE, 7, index);
        }
    }
}

/* Writing minds only a buffer that is too short; reading records minds every length. */
static void spoil_lengths(struct fault f) {
    if (f.kind == SHORT_FILE) {
        set_length(&written_file, file.length - 1 - f.where % file.length);
        must(WRITE, 22, 0);
    } else if (f.kind == LONG_FILE) {
        set_length(&written_file, file.length + 1 + f.where % 64);
        must(WRITE, 0, 0);
    } else {
        struct buffer *b = f.where & 1 ? &records : &tables;
        const size_t step = (1 + f.where / 4 % 8) * unit(b);
        set_length(b, f.where & 2 && b->length >= step ? b->length - step : b->length + step);
        must(RECORDS, 14, 0);
    }
}

/* Other names in an output's record: they stand in bits 17 to 10 of its word, and no other word is another. */
static void spoil_names(struct fault f) {
    const size_t output = f.where % counts.outputs, index = counts.wires + output;
    const size_t word = file.length / 4 - 1 - counts.outputs + output;
    record(index)->named = (uint8_t)drawn(256);
    must(WRITE, 0, 0);
    for (size_t at = 0; at < file.length / 4; at++) {
        const uint32_t was = word_at(bytes(&file), at), due = (was & ~(255u << 10)) | (uint32_t)record(index)->named << 10;
        check(word_at(bytes(&written_file), at) == (at == word ? due : was), "names are written into the word of their output alone");
    }
}

/* Some fields of some records as they come: what holds of every call must hold, and what is accepted reads back. */
static void spoil_any(void) {
    for (uint32_t changes = 1 + drawn(3); changes > 0 && record_count() > 0; changes--) {
        const uint32_t value = drawn(2) ? drawn(12) : drawn(2) ? wide_numbers[drawn(8)] : drawn(1024);
        set_field(drawn((uint32_t)record_count()), drawn(FIELDS), value);
    }
    make(WRITE);
}

static void spoil_writing(struct fault f) {
    const uint64_t before = made_calls;
    f.kind = (uint8_t)((f.call + f.kind) % WRITING_FAULTS);
    met_writing[f.kind] = 1;
    const size_t index = drawn((uint32_t)record_count());
    if (f.kind == ODD_FIELD)
        spoil_field(index, f);
    else if (f.kind == OTHER_MODULUS)
        spoil_modulus(index, f);
    else if (f.kind <= NO_OUTPUT)
        spoil_kind(index, f);
    else if (f.kind <= MANY_ENTRIES)
        spoil_tables(f);
    else if (f.kind <= OTHER_LENGTH)
        spoil_lengths(f);
    else if (f.kind == OTHER_NAMES)
        spoil_names(f);
    else
        spoil_any();
    faulty += made_calls - before;
    lend_taken();
}

/* An accepted file comes out of its records as it is; a word that is refused by 4 to 9 is refused alike as a record. */
static void write_again(void) {
    take_words();
    if (reading.number >= 4 && reading.number <= 9) {
        must(WRITE, reading.number, taken.records_taken - (reading.number != 9));
    } else if (reading.number != 0) {
        make(WRITE);
        spoil_any();
    } else {
        must(RECORDS, 0, 0);
        check(same_records(record(0), taken.records, record_count()) && memcmp(bytes(&tables), taken.entries, tables.length) == 0,
            "the records are those of the file");
        must(WRITE, 0, 0);
        check(memcmp(bytes(&written_file), bytes(&file), file.length) == 0, "an accepted file is written again as it is");
        for (int i = 0; i < FAULTS; i++)
            spoil_writing(head.faults[i]);
    }
}

/* ---- whole numbers: the calls of bundles, then with one fault or two each; make() judges every answer */

/* The head's numbers, brought into range of a bundle of r. */
static void mend_bundle(uint32_t r) {
    bundle.r = r;
    bundle.first = r + head.first % (MOST_WIRES - 2 * r + 1);
    bundle.a = head.a % (bundle.first - r + 1);
    bundle.b = head.b % (bundle.first - r + 1);
    bundle.integer = head.integer % product();
    set_length(&residues, r);
    set_length(&part, 4 * MOST_PART);
}

enum { BUNDLE_TRIALS = 8 };
enum { ODD_R, OTHER_RESIDUES, LARGE_INTEGER, LARGE_RESIDUE, HIGH_BUNDLE, LATE_PART, SHORT_PART, BUNDLE_FAULTS };
COUNTERS static uint8_t met_bundle[CALLS][BUNDLE_FAULTS][NUMBERS];

static void spoil_bundle(enum call c, unsigned kind, unsigned where) {
    static const uint32_t odd[] = {0, 1, 11, 12, 255, 256 + 2, 1 << 16 | 5, 1u << 31 | 10};
    const uint32_t r = bundle.r, high = bundle.first - r + 1;
    list_part(c);
    if (kind == ODD_R)
        bundle.r = odd[where % 8];
    else if (kind == OTHER_RESIDUES)
        set_length(&residues, where % 2 ? r + 1 + where / 2 % 64 : where / 2 % r);
    else if (kind == LARGE_INTEGER)
        bundle.integer = where % 3 == 0 ? product() + where / 3 % 4 : where % 3 == 1 ? bundle.integer | 1ull << (33 + where / 3 % 31)
            : UINT64_MAX - where / 3 % 4;
    else if (kind == LARGE_RESIDUE && residues.length == r) /* every other time the prime itself */
        bytes(&residues)[where % r] = (uint8_t)(primes[where % r] + where / 16 % 2 * (where / 32 % (256u - primes[where % r])));
    else if (kind == HIGH_BUNDLE)
        *(where & 1 ? &bundle.a : &bundle.b) = where & 2 ? UINT32_MAX - where / 4 % 16 : high + where / 4 % 16;
    else if (kind == LATE_PART)
        bundle.first = where & 1 ? UINT32_MAX - where / 2 % 16 : MOST_WIRES - r + where / 2 % 4;
    else if (kind == SHORT_PART)
        set_length(&part, where & 1 ? 4 * (size_t)due_count - 1 - where / 2 % 4 : where / 2 % (4 * (size_t)due_count + 8));
}

/* A call with one number or buffer spoiled, and every other time another before it: the first check that fails decides. Some are none that
   this call looks at, and it accepts. An r that is out of range comes last, since other faults go by r. */
static void try_fault(enum call c, unsigned kind, unsigned where) {
    mend_bundle(2 + drawn(MOST_R - 1));
    must(SPLIT, 0, 0);
    if (drawn(2))
        spoil_bundle(c, 1 + drawn(BUNDLE_FAULTS - 1), drawn(1 << 16));
    spoil_bundle(c, kind, where);
    lupiknam_answer a = make(c);
    met_bundle[c][kind][a.number] = 1;
    faulty += a.number != 0;
}

/* A circuit with two bundles and a part, and the values of its inputs. */
static struct {
    uint8_t words[4 * (MOST_PART + 128)];
    size_t length;
    uint8_t values[128];
    uint32_t wires, inputs;
} small;

static void put_small(uint32_t w) {
    for (int i = 0; i < 4; i++)
        small.words[small.length++] = (uint8_t)(w >> 8 * i);
}

static void small_input(uint8_t p, uint8_t value) {
    put_small(2u << 28 | drawn(8) << 16 | p);
    small.values[small.wires++] = value;
}

/* Inputs that are no part of a bundle. */
static void small_filling(void) {
    for (uint32_t i = drawn(4); i > 0; i--) {
        const uint8_t p = primes[drawn(PRIMES)];
        small_input(p, (uint8_t)drawn(p));
    }
}

/* Inputs with an integer, as splitting has it; returns the first wire. */
static uint32_t small_bundle(uint64_t of) {
    const uint32_t first = small.wires;
    bundle.integer = of;
    must(SPLIT, 0, 0);
    for (uint32_t i = 0; i < bundle.r; i++)
        small_input(primes[i], bytes(&residues)[i]);
    return first;
}

static uint64_t some_integer(void) {
    const uint64_t wide = (uint64_t)drawn(UINT32_MAX) << 32 | drawn(UINT32_MAX), below = product();
    return drawn(4) ? wide % below : drawn(2) ? below - 1 - drawn(2) : drawn(2);
}

/* Appends a part at the next wire, and outputs of what it makes. */
static void small_part(enum call c) {
    set_length(&part, 4 * MOST_PART);
    bundle.first = small.wires;
    must(c, 0, 0);
    memcpy(small.words + small.length, bytes(&part), 4 * (size_t)due_count);
    small.length += 4 * (size_t)due_count;
    for (uint32_t i = 0; i < bundle.r; i++)
        put_small(10u << 28 | (bundle.first + i));
    put_small(11u << 28);
}

/* The rows of a part: for each prime p 2p of a product, p of a square and of a project, but none of a square at 2. */
static uint32_t rows_due(enum call c) {
    uint32_t due = 0;
    for (uint32_t i = 0; i < bundle.r; i++) {
        const uint32_t p = primes[i];
        if (c == MULTIPLY)
            due += bundle.a != bundle.b ? 2 * p : p == 2 ? 0 : p;
        else if (c == SCALE && bundle.integer % p == 0)
            due += p;
    }
    return due;
}

/* A circuit of its own with two bundles, other wires and a part: the reader takes it, and what comes out is the integer that is due. */
static void compute(enum call c) {
    const uint64_t x = some_integer(), y = some_integer(), m = product();
    uint8_t outputs[MOST_R];
    uint32_t got[6];
    small.length = small.wires = 0;
    put_small(1u << 28);
    small_filling();
    bundle.a = small_bundle(x);
    small_filling();
    bundle.b = small_bundle(y);
    small_filling();
    small.inputs = small.wires;
    if (drawn(2)) /* another gate before the part */
        put_small(3u << 28 | bundle.a << 10 | bundle.a), small.wires++;
    if (drawn(4) == 0)
        bundle.a = bundle.b;
    bundle.integer = some_integer();
    small_part(c);
    const uint64_t left = bundle.a == bundle.b ? y : x;
    const unsigned __int128 due = c == ADD ? (unsigned __int128)left + y : (unsigned __int128)left * (c == SCALE ? bundle.integer : y);
    lupiknam_answer a = lupiknam_read(small.words, small.length, got, got + 1, got + 2, got + 3, got + 4, got + 5);
    check(a.number == 0 && got[0] == bundle.first + bundle.r, "the reader accepts a part at the next wire");
    check(got[3] == rows_due(c), "a part has the rows that are due");
    a = lupiknam_plain(small.words, small.length, small.values, small.inputs, outputs, bundle.r);
    check(a.number == 0, "a circuit with a part is evaluated");
    set_bytes(&residues, outputs);
    must(JOIN, 0, 0);
    check(joined() == (uint64_t)(due % m), "a part computes modulo the product");
}

static void try_bundles(void) {
    mend_bundle(2 + head.r % (MOST_R - 1));
    must(SPLIT, 0, 0);
    must(JOIN, 0, 0);
    check(joined() == bundle.integer, "what is split joins again");
    for (enum call c = ADD; c <= SCALE; c++) {
        list_part(c);
        set_length(&part, 4 * (size_t)due_count + (head.loose & 1 ? drawn(64) : 0));
        must(c, 0, 0);
    }
    compute(ADD + head.seed % 3);
    for (int i = 0; i < BUNDLE_TRIALS; i++)
        try_fault(SPLIT + drawn(SCALE + 1 - SPLIT), drawn(BUNDLE_FAULTS), drawn(1 << 16));
}

/* ---- a round */

/* A byte below p, by the style of the draw: any, the largest, none, or one of these two. */
static uint8_t below(unsigned p) {
    switch (head.style % 4) {
    case 0:
        return (uint8_t)drawn(p);
    case 1:
        return (uint8_t)(p - 1);
    case 2:
        return 0;
    default:
        return (uint8_t)(drawn(2) * (p - 1));
    }
}

static void draw_contributions(void) {
    uint8_t *c = bytes(&contributions);
    for (size_t i = 0; i < contributions.length; i++)
        c[i] = below(modulus_at(&contributions, i));
    for (uint32_t j = 0; j < n; j++) /* no offset is zero */
        for (uint32_t q = 0; q < counts.moduli; q++) {
            uint8_t *offset = c + j * contribution_size() + (size_t)q * k;
            if (all_are(offset, offset + k, 0))
                offset[drawn(k)] = (uint8_t)(1 + drawn(contribution_modulus[q * k] - 1u));
        }
}

static void set_party(uint32_t j) {
    party = j;
    list_own();
    set_length(&own_values, own);
    set_length(&own_masks, own);
    set_length(&own_externals, own);
    set_bytes(&contribution, bytes(&contributions) + party * contribution.length);
    set_bytes(&sheet, bytes(&output_masks) + party * sheet.length);
    for (uint32_t i = 0; i < own; i++) {
        bytes(&own_values)[i] = bytes(&values)[own_wire[i]];
        bytes(&own_masks)[i] = bytes(&input_masks)[own_wire[i]];
    }
}

static void exchange(void) {
    uint32_t owned = 0;
    for (uint32_t j = 0; j < n; j++) {
        set_party(j);
        must(INPUTS_OF, 0, 0);
        check(word_at(bytes(&count), 0) == own, "a party's inputs are counted");
        must(EXTERNALS, 0, 0);
        for (uint32_t i = 0; i < own; i++)
            bytes(&externals)[own_wire[i]] = bytes(&own_externals)[i];
        owned += own;
    }
    check(owned == counts.inputs, "every input has one owner");
    for (uint32_t j = 0; j < n; j++) {
        set_party(j);
        must(INPUT_KEYS, 0, 0);
        for (size_t w = 0; w < counts.inputs; w++)
            memcpy(bytes(&keys) + (w * n + j) * k, bytes(&own_keys) + w * k, k);
    }
}

/* The masks of all outputs, gathered from the sheets: an output has at least one reader, and the same mask on the sheets of all. */
static void gather_masks(void) {
    for (size_t o = 0; o < counts.outputs; o++) {
        uint32_t first = 0;
        while (!may_read(first, o))
            first++;
        bytes(&pair_masks)[o] = bytes(&output_masks)[first * counts.outputs + o];
        for (uint32_t j = first; j < n; j++)
            check(!may_read(j, o) || bytes(&output_masks)[j * counts.outputs + o] == bytes(&pair_masks)[o],
                "an output has one mask, whoever reads it");
    }
}

/* A party decodes the plain figures that it may read. */
static void judge_decoded(void) {
    for (size_t o = 0; o < counts.outputs; o++)
        check(bytes(&decoded)[o] == (may_read(party, o) ? bytes(&figures)[o] : NOT_READ),
            "a round decodes the plain circuit's outputs for those who may read them");
}

/* With its own sheet, and again with any bytes where it may not read. */
static void decode_at_party(void) {
    must(DECODE, 0, 0);
    judge_decoded();
    for (size_t o = 0; o < counts.outputs; o++)
        if (hidden(&sheet, o))
            bytes(&sheet)[o] = (uint8_t)drawn(256);
    must(DECODE, 0, 0);
    judge_decoded();
}

/* Every party opens the same keys and external values, those of the inputs are the ones lent, and every party decodes the plain figures
   that it may read. Decoding for two, which passes over names, gives all of them by all masks. */
static void open_at_all(uint32_t last) {
    static uint8_t first_keys[1 << 21], first_externals[4096];
    for (uint32_t j = 1; j <= n; j++) {
        set_party((last + j) % n);
        must(OPEN, 0, 0);
        if (j == 1) {
            memcpy(first_keys, bytes(&wire_keys), wire_keys.length);
            memcpy(first_externals, bytes(&wire_externals), wire_externals.length);
        }
        check(memcmp(first_keys, bytes(&wire_keys), wire_keys.length) == 0, "all parties open the same keys");
        check(memcmp(first_externals, bytes(&wire_externals), wire_externals.length) == 0, "all parties open the same external values");
        decode_at_party();
    }
    gather_masks();
    set_bytes(&pair_externals, first_externals);
    must(PAIR_DECODE, 0, 0);
    check(memcmp(bytes(&pair_figures), bytes(&figures), figures.length) == 0, "decoding for two passes over names");
    check(memcmp(first_keys, bytes(&keys), keys.length) == 0, "the keys of inputs are those lent");
    check(memcmp(first_externals, bytes(&externals), externals.length) == 0, "the external values of inputs are those lent");
}

/* A total to which the rows can be added. */
static uint32_t with_space(uint32_t total, uint32_t for_rows) {
    const uint32_t most = UINT32_MAX - for_rows;
    return total < most ? total : most;
}

/* The meter that a round is garbled with: the head's totals, with space in the named one, or a carried total. */
static void start_meter(uint32_t for_rows) {
    uint32_t totals[ACCOUNTS];
    memcpy(totals, head.totals, sizeof totals);
    totals[account] = with_space(totals[account], for_rows);
    memcpy(bytes(&meter), totals, sizeof totals);
    if (head.lying & 4) {
        carried = with_space(~head.totals[0], for_rows);
        must(CARRY, 0, 0);
    }
}

static void draw_values(void) {
    for (uint32_t w = 0; w < counts.inputs; w++)
        bytes(&values)[w] = (uint8_t)drawn(modulus[w]);
}

static void play(void) {
    const uint32_t last = party;
    account %= ACCOUNTS;
    list_contribution();
    for (size_t i = 1; i < BUFFERS; i++) {
        set_length(all[i], exact(all[i]));
        check(all[i]->length == exact(all[i]), "a round that is played fits its buffers");
    }
    draw_values();
    draw_contributions();
    start_meter(counts.rows);
    must(PLAIN, 0, 0);
    must(GARBLE, 0, 0);
    exchange();
    open_at_all(last);
    rounds++;
}

/* ---- calls of the round again, each with one fault, two bytes too large or a bad account besides; all else is right, so the answer is
   known */

enum { BAD_N, BAD_K, BAD_PARTY, OWNER_ABSENT, READER_ABSENT, BAD_LENGTH, BAD_BYTE, ZERO_OFFSET, OTHER_KEY, OTHER_ROW, OTHER_ROUND,
    FULL_METER, BAD_ACCOUNT, FAULT_KINDS };
COUNTERS static uint8_t met_fault[CALLS][FAULT_KINDS][2]; /* the account good, or bad */

/* The answer that is due to a fault; where the account is bad besides, 25 stands directly after 14, and so after 28. */
static void must_spoiled(enum call c, uint32_t number, size_t place) {
    if (c == GARBLE && account >= ACCOUNTS && (number == 0 || number > 14) && number != 28)
        must(GARBLE, 25, 0);
    else
        must(c, number, place);
}

static const uint32_t odd_numbers[] = {0, 129, 255, 256, 258, 1 << 16 | 3, UINT32_MAX, 1u << 31 | 2, 1u << 24 | 16};

static void spoil_number(enum call c, struct fault f) {
    const uint32_t odd = odd_numbers[f.where % 9], n_was = n, k_was = k, party_was = party;
    if (f.kind == BAD_N) {
        n = f.where / 9 % 3 == 0 ? 1 : f.where / 9 % 3 == 1 ? 9 : odd;
        must_spoiled(c, 11, 0);
    } else if (f.kind == BAD_K) {
        k = odd;
        must_spoiled(c, 11, 0);
    } else if (f.kind == BAD_PARTY) {
        party = odd < n ? n : odd;
        must_spoiled(c, 12, party);
    } else {
        uint32_t w = 0;
        n = 2 + f.where % (n - 1);
        while (w < counts.inputs && owner[w] < n)
            w++;
        if (party < n || !(calls[c].given & TAKES_PARTY)) {
            if (w < counts.inputs)
                must_spoiled(c, 13, w);
            else if (first_absent() < counts.outputs)
                must_spoiled(c, 28, first_absent());
        }
    }
    n = n_was, k = k_was, party = party_was;
}

static void spoil_length(enum call c, struct fault f);

/* An output, and one at or behind it, that name a party that does not take part; every other time with a length that is not exact, which
   comes after, or with an input of such a party, which comes before. */
static void spoil_readers(enum call c, struct fault f) {
    if (n == MOST_PARTIES)
        return;
    const size_t first = f.where % counts.outputs, behind = first + drawn(counts.outputs - (uint32_t)first), w = drawn(counts.inputs);
    const uint8_t first_was = named[first], behind_was = named[behind], owner_was = owner[w];
    set_names(behind, (uint8_t)(behind_was | 1u << (n + drawn(MOST_PARTIES - n))));
    set_names(first, (uint8_t)(named[first] | 1u << (n + drawn(MOST_PARTIES - n))));
    must_spoiled(c, 28, first);
    if (calls[c].read[0] && drawn(2))
        spoil_length(c, f);
    owner[w] = bytes(&file)[4 * (1 + w) + 2] = (uint8_t)(n + drawn(MOST_PARTIES - n));
    must_spoiled(c, 13, w);
    owner[w] = bytes(&file)[4 * (1 + w) + 2] = owner_was;
    set_names(behind, behind_was);
    set_names(first, first_was);
}

/* One of the buffers that a call reads, or of those that it reads or writes; the meter has no length of its own. */
static struct buffer *one_of(enum call c, struct fault f, int written_too) {
    struct buffer *found[8];
    unsigned many = 0;
    for (int i = 0; i < 4 && calls[c].read[i]; i++)
        found[many++] = calls[c].read[i];
    for (int i = 0; written_too && i < 4 && calls[c].written[i] && calls[c].written[i] != &meter; i++)
        found[many++] = calls[c].written[i];
    return found[f.where % many];
}

static void spoil_length(enum call c, struct fault f) {
    static const int steps[] = {-1, 1, 3, 64, -64};
    struct buffer *b = one_of(c, f, 1);
    const size_t was = b->length;
    const long other = (long)was + steps[f.where / 8 % 5];
    set_length(b, other < 0 ? was + 1 : (size_t)other);
    if (reader_absent(c))
        must_spoiled(c, 28, first_absent());
    else
        must_spoiled(c, 14, 0);
    b->length = was;
}

/* A byte changed to another: at its modulus or above, every fourth time the largest, or still below. */
static void change(struct buffer *b, size_t at, int too_large, uint16_t by) {
    const unsigned p = modulus_at(b, at), was = bytes(b)[at];
    bytes(b)[at] = (uint8_t)(!too_large ? (was + 1 + by % (p - 1)) % p : by % 4 == 0 ? 255 : p + by % (256 - p));
}

/* Two bytes too large, the second at or behind the first, or of a row, anywhere, where the first is a key's: the first is named. A sheet's
   byte that its party may not read is passed over. */
static void spoil_bytes(enum call c, struct fault f) {
    struct buffer *b = one_of(c, f, 0);
    if (b->length == 0)
        return;
    struct buffer *then = b == &keys && rows.length > 0 && drawn(2) ? &rows : b;
    const size_t at = drawn((uint32_t)b->length);
    const size_t behind = then == b ? at + drawn((uint32_t)(b->length - at)) : drawn((uint32_t)rows.length);
    const uint8_t was = bytes(b)[at], was_behind = bytes(then)[behind];
    change(then, behind, 1, drawn(256));
    change(b, at, 1, f.where / 8);
    if (hidden(b, at) && hidden(then, behind))
        must_spoiled(c, 0, 0);
    else
        must_spoiled(c, b == &keys || b == &rows ? 18 : b == &contribution || b == &contributions ? 16 : 15,
            hidden(b, at) ? behind : at);
    bytes(then)[behind] = was_behind;
    bytes(b)[at] = was;
}

static void spoil_offset(enum call c, struct fault f) {
    struct buffer *b = calls[c].read[0];
    uint8_t was[128];
    const size_t q = f.where % counts.moduli, j = b == &contributions ? drawn(n) : 0;
    uint8_t *offset = bytes(b) + j * contribution_size() + q * k;
    memcpy(was, offset, k);
    memset(offset, 0, k);
    must_spoiled(c, 17, contribution_modulus[q * k]);
    memcpy(offset, was, k);
}

/* Opening with another key of its own or another external value meets 19; with another row or another party's key it may notice or not. */
static void spoil_opening(struct fault f) {
    const size_t w = drawn(counts.inputs), row = (size_t)n * k;
    struct buffer *b = f.kind == OTHER_ROW && f.where & 1 ? &rows : f.kind == OTHER_KEY && f.where & 1 ? &externals : &keys;
    if (b->length == 0)
        return;
    const uint32_t j = f.kind == OTHER_KEY ? party : (party + 1 + drawn(n - 1)) % n;
    const size_t at = b == &rows ? drawn((uint32_t)rows.length) : b == &externals ? w : w * row + j * k + drawn(k);
    const uint8_t was = bytes(b)[at];
    change(b, at, 0, f.where / 8);
    if (f.kind == OTHER_KEY) {
        must(OPEN, 19, w);
    } else {
        lupiknam_answer a = make(OPEN);
        check(a.number == 0 || a.number == 20, "opening other rows is accepted or meets 20");
    }
    bytes(b)[at] = was;
}

/* Opening in another round than garbling: no byte that is lent is wrong, so it is accepted or meets 20. */
static void spoil_round(struct fault f) {
    static const uint32_t bits[] = {1, 1 << 8, 1 << 16, 1u << 31, UINT32_MAX};
    const uint32_t was = round_number;
    round_number ^= bits[f.where % 5];
    lupiknam_answer a = make(OPEN);
    check(a.number == 0 || a.number == 20, "opening in another round is accepted or meets 20");
    check(opened_rows > 0 || a.number == 0, "the round matters to rows alone");
    round_number = was;
}

/* The named account at its limit, once the rows are added, or past it; the others full, empty or as they come, which does not matter. */
static void spoil_meter(struct fault f) {
    const uint32_t most = UINT32_MAX - counts.rows, past = f.where & 1 && counts.rows > 0 ? 1 + f.where % counts.rows : 0;
    for (uint32_t i = 0; i < ACCOUNTS; i++) {
        const uint32_t other = f.where & 2 ? head.totals[i] : f.where & 4 ? UINT32_MAX : 0, total = i == account ? most + past : other;
        memcpy(bytes(&meter) + 4 * i, &total, 4);
    }
    must_spoiled(GARBLE, past > 0 ? 21 : 0, 0);
}

/* Whether a call can have a fault. */
static int can_have(enum call c, unsigned kind) {
    const uint32_t given = calls[c].given;
    return kind == BAD_N || kind == OWNER_ABSENT || kind == READER_ABSENT ? given & TAKES_N
        : kind == BAD_K || kind == ZERO_OFFSET ? given & TAKES_K : kind == BAD_PARTY ? given & TAKES_PARTY
        : kind == BAD_LENGTH || kind == BAD_BYTE ? calls[c].read[0] != NULL : kind == FULL_METER || kind == BAD_ACCOUNT ? c == GARBLE : c == OPEN;
}

static void spoil(struct fault f) {
    static const uint32_t odd_accounts[] = {8, 9, 15, 255, 256, 256 + 7, 1 << 16 | 3, 1u << 31, UINT32_MAX};
    const uint64_t before = made_calls;
    const uint32_t account_was = account;
    enum call c = INPUTS_OF + f.call % (DECODE + 1 - INPUTS_OF);
    f.kind %= FAULT_KINDS;
    while (!can_have(c, f.kind))
        c = c < DECODE ? c + 1 : INPUTS_OF;
    if (f.kind == BAD_ACCOUNT || (c == GARBLE && drawn(4) == 0))
        account = odd_accounts[drawn(9)];
    met_fault[c][f.kind][account >= ACCOUNTS] = 1;
    if (f.kind == BAD_ACCOUNT)
        must_spoiled(GARBLE, 0, 0);
    else if (f.kind <= OWNER_ABSENT)
        spoil_number(c, f);
    else if (f.kind == READER_ABSENT)
        spoil_readers(c, f);
    else if (f.kind == BAD_LENGTH)
        spoil_length(c, f);
    else if (f.kind == BAD_BYTE)
        spoil_bytes(c, f);
    else if (f.kind == ZERO_OFFSET)
        spoil_offset(c, f);
    else if (f.kind == OTHER_ROUND)
        spoil_round(f);
    else if (f.kind == FULL_METER)
        spoil_meter(f);
    else
        spoil_opening(f);
    account = account_was;
    faulty += made_calls - before;
}

/* Contributions and rows as they were while a copy had a record and two rows, which is too long. */
static void lend_old_layouts(void) {
    const size_t record = k + 1, two_rows = 2 * (size_t)n * k;
    const struct {
        enum call call;
        struct buffer *buffer;
        size_t more;
    } old[] = {{GARBLE, &contributions, n * record}, {GARBLE, &rows, two_rows}, {INPUT_KEYS, &contribution, record},
        {OPEN, &contribution, record}, {OPEN, &rows, two_rows}};
    for (size_t i = 0; copies > 0 && i < sizeof old / sizeof old[0]; i++) {
        const size_t was = old[i].buffer->length;
        set_length(old[i].buffer, was + copies * old[i].more);
        must(old[i].call, 14, 0);
        old[i].buffer->length = was;
        faulty++;
    }
}

/* Every fault is taken back; what a refused call had filled before it was made is put back here. */
static void spoil_all(void) {
    static uint8_t rows_were[1 << 21], masks_were[MOST_PARTIES * MOST_OUTPUTS], externals_were[MOST_WIRES];
    memcpy(rows_were, bytes(&rows), rows.length);
    memcpy(masks_were, bytes(&output_masks), output_masks.length);
    memcpy(externals_were, bytes(&wire_externals), wire_externals.length);
    for (int i = 0; i < FAULTS; i++) {
        spoil(head.faults[i]);
        set_bytes(&rows, rows_were);
        set_bytes(&output_masks, masks_were);
        set_bytes(&wire_externals, externals_were);
    }
}

/* ---- a round of the two-party form */

static uint64_t pair_rounds;

static void draw_for_two(void) {
    for (size_t i = 0; i < draw.length; i++)
        bytes(&draw)[i] = i % k == 0 && i / k < counts.moduli ? 1 : below(modulus_at(&draw, i));
}

static const uint8_t *offset_of(unsigned p) {
    return bytes(&draw) + (size_t)k * (size_t)((const uint8_t *)memchr(used_moduli, (int)p, counts.moduli) - used_moduli);
}

/* A key is another one plus so many times the offset of its modulus. */
static int is_key(const uint8_t *key, const uint8_t *other, unsigned times, unsigned p) {
    for (uint32_t i = 0; i < k; i++)
        if (key[i] != (other[i] + times * offset_of(p)[i]) % p)
            return 0;
    return 1;
}

/* Opening for the values that are set: keys of inputs are zero key plus value times offset, those that were lent come back, the external
   value is component 0 of each key, and the figures are the plain circuit's. */
static void open_for_two(void) {
    must(PLAIN, 0, 0);
    must(PAIR_INPUT_KEYS, 0, 0);
    for (size_t w = 0; w < counts.inputs; w++)
        check(is_key(bytes(&pair_keys) + w * k, bytes(&draw) + (counts.moduli + w) * k, bytes(&values)[w], modulus[w]),
            "an input key for two is zero key plus value times offset");
    must(PAIR_OPEN, 0, 0);
    check(memcmp(bytes(&pair_wire_keys), bytes(&pair_keys), pair_keys.length) == 0, "the keys of inputs for two are those lent");
    for (size_t w = 0; w < counts.wires; w++)
        check(bytes(&pair_externals)[w] == bytes(&pair_wire_keys)[w * k], "an external value for two is component 0 of its key");
    must(PAIR_DECODE, 0, 0);
    check(memcmp(bytes(&pair_figures), bytes(&figures), figures.length) == 0, "a round for two decodes the plain circuit's outputs");
}

/* Opened for two lists of values, the keys of an output differ by the difference of its figures times the offset. */
static void open_twice(void) {
    static uint8_t first_keys[1 << 18], first_figures[MOST_OUTPUTS];
    open_for_two();
    memcpy(first_keys, bytes(&pair_wire_keys), pair_wire_keys.length);
    memcpy(first_figures, bytes(&figures), figures.length);
    draw_values();
    open_for_two();
    for (size_t o = 0; o < counts.outputs; o++) {
        const unsigned p = modulus[output_wire[o]], apart = bytes(&figures)[o] + p - first_figures[o];
        check(is_key(bytes(&pair_wire_keys) + (size_t)output_wire[o] * k, first_keys + (size_t)output_wire[o] * k, apart, p),
            "keys of two values differ by so many offsets");
    }
}

/* Opening with another byte in one row: where the row is that of its external value the key of its wire differs by as much, else nothing
   does. */
static void change_row(void) {
    static uint8_t keys_were[1 << 18];
    if (pair_rows.length == 0)
        return;
    const size_t at = drawn((uint32_t)pair_rows.length), wire = pair_row[at / k].wire, place = wire * k + at % k;
    const int read = bytes(&pair_externals)[pair_row[at / k].under] == pair_row[at / k].external;
    const unsigned p = modulus[wire], more = 1 + drawn(p - 1);
    const uint8_t was = bytes(&pair_rows)[at];
    memcpy(keys_were, bytes(&pair_wire_keys), pair_wire_keys.length);
    bytes(&pair_rows)[at] = (uint8_t)((was + more) % p);
    must(PAIR_OPEN, 0, 0);
    keys_were[place] = (uint8_t)((keys_were[place] + read * more) % p);
    check(memcmp(keys_were, bytes(&pair_wire_keys), read ? (wire + 1) * k : pair_wire_keys.length) == 0,
        "opening for two reads the row of the external value, and no other");
    bytes(&pair_rows)[at] = was;
}

/* Opening in another round is accepted too. */
static void change_round(void) {
    static uint8_t keys_were[1 << 18];
    const uint32_t was = round_number;
    memcpy(keys_were, bytes(&pair_wire_keys), pair_wire_keys.length);
    round_number ^= 1u << drawn(32);
    must(PAIR_OPEN, 0, 0);
    check(pair_halves > 0 || memcmp(keys_were, bytes(&pair_wire_keys), pair_wire_keys.length) == 0, "the round matters to rows alone");
    round_number = was;
}

static void play_for_two(void) {
    account %= ACCOUNTS;
    for (size_t i = 1; i < BUFFERS; i++) /* a ring's may be too long for theirs */
        set_length(all[i], exact(all[i]));
    struct buffer *const lent_here[] = {&draw, &pair_rows, &pair_masks, &pair_keys, &pair_wire_keys, &pair_externals, &pair_figures};
    for (size_t i = 0; i < sizeof lent_here / sizeof lent_here[0]; i++)
        check(lent_here[i]->length == exact(lent_here[i]), "a round for two that is played fits its buffers");
    draw_values();
    draw_for_two();
    start_meter(pair_total);
    must(PAIR_READ, 0, 0);
    check(word_at(bytes(&pair_count), 0) == pair_total, "the rows for two are those of the file");
    must(PAIR_GARBLE, 0, 0);
    for (size_t o = 0; o < counts.outputs; o++) /* nothing from here on minds who is named */
        set_names(o, (uint8_t)drawn(256));
    open_twice();
    change_row();
    change_round();
    pair_rounds++;
}

/* ---- calls of that round again, each with one to four faults; all else is right, so the first in the order of the checks is named */

enum { TWO_KEYS, TWO_OWNERS, TWO_LENGTHS, TWO_ACCOUNTS, TWO_VALUES, TWO_MASKS, TWO_BYTES, TWO_OFFSETS, TWO_KEY_BYTES, TWO_ROW_BYTES,
    TWO_METERS, TWO_FAULTS };
COUNTERS static uint8_t met_pair[CALLS][TWO_FAULTS][TWO_FAULTS]; /* the fault that is due, and another */

#define AS_BIT(fault) (1u << (fault))
enum { TWO_ANY = AS_BIT(TWO_KEYS) | AS_BIT(TWO_OWNERS) | AS_BIT(TWO_LENGTHS) };

static uint32_t faults_for_two(enum call c) {
    if (c == PAIR_DECODE)
        return AS_BIT(TWO_LENGTHS) | AS_BIT(TWO_MASKS);
    const uint32_t bits = c == PAIR_GARBLE ? AS_BIT(TWO_ACCOUNTS) | AS_BIT(TWO_BYTES) | AS_BIT(TWO_OFFSETS) | AS_BIT(TWO_METERS)
        : c == PAIR_INPUT_KEYS ? AS_BIT(TWO_VALUES) | AS_BIT(TWO_BYTES) | AS_BIT(TWO_OFFSETS)
        : AS_BIT(TWO_KEY_BYTES) | AS_BIT(TWO_ROW_BYTES);
    /* no row is too large where there is none, and no meter too full */
    return TWO_ANY | (pair_total > 0 ? bits : bits & ~(AS_BIT(TWO_ROW_BYTES) | AS_BIT(TWO_METERS)));
}

/* A byte too large, and another at or behind it; the place of the first. */
static size_t too_large(struct buffer *b) {
    const size_t at = drawn((uint32_t)b->length), behind = at + drawn((uint32_t)(b->length - at));
    change(b, behind, 1, (uint16_t)drawn(256));
    change(b, at, 1, (uint16_t)drawn(256));
    return at;
}

/* External values too large, or masks, or both; the lowest place of all. Every mask is judged, whoever is named. */
static size_t bad_masks(void) {
    const uint32_t which = drawn(3);
    const size_t external = which != 0 ? too_large(&pair_externals) : SIZE_MAX, mask = which != 1 ? too_large(&pair_masks) : SIZE_MAX;
    return external < mask ? external : mask;
}

/* Component 0 of an offset, and of another of a larger modulus, other than 1; the lower modulus. */
static size_t bad_offsets(void) {
    const uint32_t q = drawn(counts.moduli), behind = q + drawn(counts.moduli - q);
    for (uint32_t i = behind;; i = q) {
        const uint32_t other = drawn(used_moduli[i] - 1u);
        bytes(&draw)[(size_t)i * k] = (uint8_t)(other == 0 ? 0 : other + 1);
        if (i == q)
            return used_moduli[q];
    }
}

/* An input, and one at or behind it, of a party that there is not; the first wire. */
static size_t bad_owners(void) {
    const uint32_t w = drawn(counts.inputs), behind = w + drawn(counts.inputs - w);
    for (uint32_t i = behind;; i = w) {
        owner[i] = bytes(&file)[4 * (1 + (size_t)i) + 2] = (uint8_t)(2 + drawn(6));
        if (i == w)
            return w;
    }
}

static void bad_meter(void) {
    const uint32_t total = UINT32_MAX - pair_total + 1 + drawn(pair_total);
    memcpy(bytes(&meter) + 4 * account, &total, 4);
}

static void bad_length(enum call c) {
    struct buffer *b = one_of(c, (struct fault){0, 0, (uint16_t)drawn(1 << 16)}, 1);
    const uint32_t step = 1 + drawn(64);
    set_length(b, drawn(2) || b->length < step ? b->length + step : b->length - step);
}

/* Lays one fault; its number, and the place in *place. Key length and account come last, since others go by them. */
static uint32_t lay_fault(enum call c, unsigned kind, size_t *place) {
    static const uint32_t odd_accounts[] = {8, 9, 15, 255, 256, 256 + 7, 1 << 16 | 3, 1u << 31, UINT32_MAX};
    static const uint8_t numbers_due[TWO_FAULTS] = {11, 13, 14, 25, 15, 15, 16, 27, 18, 18, 21};
    *place = 0;
    if (kind == TWO_OWNERS)
        *place = bad_owners();
    else if (kind == TWO_VALUES)
        *place = too_large(&values);
    else if (kind == TWO_MASKS)
        *place = bad_masks();
    else if (kind == TWO_BYTES)
        *place = too_large(&draw);
    else if (kind == TWO_OFFSETS)
        *place = bad_offsets();
    else if (kind == TWO_KEY_BYTES)
        *place = too_large(&pair_keys);
    else if (kind == TWO_ROW_BYTES)
        *place = too_large(&pair_rows);
    else if (kind == TWO_METERS)
        bad_meter();
    else if (kind == TWO_LENGTHS)
        bad_length(c);
    else if (kind == TWO_ACCOUNTS)
        account = odd_accounts[drawn(9)];
    else
        k = odd_numbers[drawn(9)];
    return numbers_due[kind];
}

/* A selector comes before all but the faults of the file; make() sees that it is named. */
static void refuse_selector(void) {
    const uint32_t k_was = k;
    for (enum call c = PAIR_GARBLE; c <= PAIR_OPEN; c++) {
        k = odd_numbers[drawn(9)];
        make(c);
    }
    k = k_was;
}

/* What the calls read, put aside and back again. */
static struct {
    uint8_t file[4 * MOST_WORDS + 4096], owner[MOST_WIRES], draw[1 << 18], rows[1 << 21], keys[1 << 18], values[4096];
    uint8_t masks[4096], externals[4096], wire_keys[1 << 18], figures[4096];
} aside;
static struct {
    struct buffer *buffer;
    uint8_t *bytes;
} const kept_aside[] = {{&file, aside.file}, {&draw, aside.draw}, {&pair_rows, aside.rows}, {&pair_keys, aside.keys},
    {&values, aside.values}, {&pair_masks, aside.masks}, {&pair_externals, aside.externals}, {&pair_wire_keys, aside.wire_keys},
    {&pair_figures, aside.figures}};
enum { KEPT_ASIDE = sizeof kept_aside / sizeof kept_aside[0] };

static void put_aside(void) {
    for (size_t i = 0; i < KEPT_ASIDE; i++)
        memcpy(kept_aside[i].bytes, bytes(kept_aside[i].buffer), kept_aside[i].buffer->length);
    memcpy(aside.owner, owner, sizeof owner);
}

static void put_back(const size_t *lengths) {
    for (size_t i = 0; i < KEPT_ASIDE; i++) {
        kept_aside[i].buffer->length = lengths[i];
        set_bytes(kept_aside[i].buffer, kept_aside[i].bytes);
    }
    memcpy(owner, aside.owner, sizeof owner);
}

/* The offsets before other bytes of the draw, so that a component 0 that is too large stays so; the lengths and k after all that go by
   them. */
static void spoil_for_two(struct fault f) {
    static const uint8_t order[TWO_FAULTS] = {TWO_OWNERS, TWO_VALUES, TWO_MASKS, TWO_OFFSETS, TWO_BYTES, TWO_KEY_BYTES, TWO_ROW_BYTES,
        TWO_METERS, TWO_LENGTHS, TWO_ACCOUNTS, TWO_KEYS};
    const enum call c = PAIR_GARBLE + f.call % 4;
    const uint32_t can = faults_for_two(c), k_was = k, account_was = account;
    size_t lengths[KEPT_ASIDE], places[TWO_FAULTS];
    uint32_t numbers_of[TWO_FAULTS], wrong, first = 0;
    unsigned kind = f.kind % TWO_FAULTS;
    while (!(can >> kind & 1))
        kind = (kind + 1) % TWO_FAULTS;
    wrong = AS_BIT(kind);
    for (uint32_t more = drawn(4); more > 0; more--)
        wrong |= AS_BIT(drawn(TWO_FAULTS)) & can;
    for (size_t i = 0; i < KEPT_ASIDE; i++)
        lengths[i] = kept_aside[i].buffer->length;
    start_meter(pair_total);
    for (size_t i = 0; i < TWO_FAULTS; i++)
        if (wrong >> order[i] & 1)
            numbers_of[order[i]] = lay_fault(c, order[i], &places[order[i]]);
    while (!(wrong >> first & 1))
        first++;
    met_pair[c][first][kind] = 1;
    must(c, numbers_of[first], places[first]);
    k = k_was, account = account_was;
    put_back(lengths);
    faulty++;
}

/* ---- what libFuzzer calls */

static void report(void) {
    fprintf(stderr, "%llu calls, %llu whole rounds, %llu of two, %llu calls with a fault; answers:\n", (unsigned long long)made_calls,
        (unsigned long long)rounds, (unsigned long long)pair_rounds, (unsigned long long)faulty);
    for (enum call c = READ; c < CALLS; c++) {
        fprintf(stderr, "%s:", calls[c].name);
        for (int number = 0; number < NUMBERS; number++)
            if (number == 0 || calls[c].refusals >> number & 1)
                fprintf(stderr, " %d=%llu", number, (unsigned long long)met[c][number]);
        fputc('\n', stderr);
    }
}

int LLVMFuzzerInitialize(int *argc, char ***argv) {
    (void)argc, (void)argv;
    list_primes();
    map_buffers();
    atexit(report);
    return 0;
}

int LLVMFuzzerTestOneInput(const uint8_t *data, size_t size) {
    if (size < sizeof head)
        return 0;
    memcpy(&head, data, sizeof head);
    random_state = head.seed;
    n = head.n, k = head.k, party = head.party, round_number = head.round, account = head.account;
    if (head.mode % 4 != 0) {
        n = 2 + n % 7;
        k = 1 + k % 128;
        party %= n;
        account %= ACCOUNTS;
    }
    numbers.length = 24, count.length = written_words.length = part_words.length = pair_count.length = 4, integer.length = 8;
    meter.length = sizeof(lupiknam_meter);
    bundle.r = head.r, bundle.first = head.first, bundle.a = head.a, bundle.b = head.b, bundle.integer = head.integer;
    read_file(data + sizeof head, size - sizeof head);
    list_own();
    call_loosely();
    write_again();
    try_bundles();
    if (reading.number == 0 && in_range() && owners_below(n) && first_absent() == counts.outputs && !dear()) {
        play();
        spoil_all();
        lend_old_layouts();
    }
    if (reading.number == 0 && first_select > 0)
        refuse_selector();
    if (reading.number == 0 && first_select == 0 && k >= 1 && k <= 128 && owners_below(2) && !dear_for_two()) {
        play_for_two();
        put_aside();
        for (int i = 0; i < FAULTS; i++)
            spoil_for_two(head.faults[i]);
    }
    return 0;
}
