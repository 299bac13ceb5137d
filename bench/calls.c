// Times the calls of bundles, the writing of a file, garbling and one party's opening, and both in the two-party form. A call and what it is
// set against are timed in turn, and medians of many runs are taken, so that a busy machine slows both alike.
//
// First the calls of bundles, which need no file: `name ratio=R ns=T`, where T is the time of one call and R that time divided by that of a
// loop in C that does the same and checks nothing. That is a hard measure: joining has its weights reckoned beforehand, and since the compiler
// sees the primes, it makes multiplications of splitting's remainders (not of scaling's).
//
// Then, on the first file, `write-usual` and `records-usual`: the same line, where R is the time divided by the time of reading the file.
//
// Of garbling and opening, each line is `name ratio=R ns=T rows=N`: R is the time divided by that of as many of the baseline's Keccak
// permutations as the call's pads need, N the number of rows garbled or opened.
//
// `pair-garble-kK` and `pair-open-kK` are the same of the two-party form, on the first file with the sum of its branches for each selector
// and with two owners; before them stand garbling and opening of that circuit by a ring of two. A gate's half, of which a project has one
// and a product two, has a pad for each value of the wire that it is under, also for the one that has no row; opening has one for each half.
// `rows=` of `pair-open-kK` is therefore the number of halves opened.
//
// After each line of a ring on a file as it is stands the same measurement as a point, for bench/plot: `point call=C n=N k=K rows=R ms=T
// permutations=P ratio=Q`. Here R is the number of rows of the circuit, in opening too, and P the permutations that the call's pads need.
//
// Given circuit files of growing size, the one to time closely first.
#include "keccak.h"
#include "lupiknam.h"
#include <stdio.h>
#include <stdlib.h>
#include <string.h>
#include <time.h>

enum { MOST_RUNS = 31, LEAST_RUNS = 5, SHORT_RUNS = 41, SHORT_CALLS = 200, BUNDLE_CALLS = 20000 };

// a circuit, and a round on it
static struct {
    uint8_t *file;
    size_t file_length;
    uint32_t wires, inputs, outputs, rows, moduli, records;
    uint32_t opened_rows;
    uint32_t n, k;
    size_t contribution, rows_length, keys_length, wire_keys_length;
    uint8_t *contributions, *row_bytes, *keys, *wire_keys, *wire_externals;
    uint8_t values[1024], externals[1024], input_masks[1024], output_masks[8 * 256], decoded[256], plain[256];
} r;

// a circuit's records, and the file written from them
static struct {
    lupiknam_record list[1024 + 256];
    uint8_t *tables, *file;
    size_t tables_length;
    uint32_t words;
} w;

static uint64_t random_state = 1;

static uint8_t random_bit(void) {
    random_state = random_state * 6364136223846793005u + 1442695040888963407u;
    return (uint8_t)(random_state >> 63);
}

static void must(lupiknam_answer answer, const char *call) {
    if (answer.number != 0) {
        printf("%s refused %u at %zu\n", call, (unsigned)answer.number, answer.place);
        exit(1);
    }
}

static double now(void) {
    struct timespec t;
    clock_gettime(CLOCK_MONOTONIC, &t);
    return (double)t.tv_sec * 1e9 + (double)t.tv_nsec;
}

static int ascending(const void *a, const void *b) {
    double x = *(const double *)a, y = *(const double *)b;
    return (x > y) - (x < y);
}

static double median(double *times, int count) {
    qsort(times, (size_t)count, sizeof *times, ascending);
    return times[count / 2];
}

static uint32_t word(size_t at) {
    const uint8_t *b = r.file + 4 * at;
    return b[0] | (uint32_t)b[1] << 8 | (uint32_t)b[2] << 16 | (uint32_t)b[3] << 24;
}

static void *room(size_t bytes) {
    void *at = malloc(bytes + 1);
    if (!at)
        exit(1);
    return at;
}

// one row of a projection and of a square, none of a bit times itself, two of any other product and of a select
static uint32_t opened_of(uint32_t kind, int square, uint32_t modulus) {
    if (kind == 5 && square)
        return modulus == 2 ? 0 : 1;
    return kind == 6 ? 1 : kind == 5 || kind == 9 ? 2 : 0;
}

static void count_file(void) {
    uint8_t modulus[1024];
    must(lupiknam_read(r.file, r.file_length, &r.wires, &r.inputs, &r.outputs, &r.rows, &r.moduli, &r.records), "read");
    r.opened_rows = 0;
    for (uint32_t at = 1, made = 0; made < r.wires; at++) {
        uint32_t kind = word(at) >> 28, high = word(at) >> 10 & 1023, low = word(at) & 1023;
        if (kind == 7 || kind == 8) // an entry makes no wire, and a select makes its own at its second word
            continue;
        modulus[made] = (uint8_t)(kind == 2 ? low : kind == 6 ? high : modulus[low]);
        r.opened_rows += opened_of(kind, high == low, modulus[made++]);
    }
}

static void read_file(const char *path) {
    FILE *f = fopen(path, "rb");
    if (!f) {
        perror(path);
        exit(1);
    }
    free(r.file);
    r.file = room(1 << 21);
    r.file_length = fread(r.file, 1, 1 << 21, f);
    fclose(f);
    count_file();
}

// bytes below every modulus, and offsets that are not zero
static void draw_contributions(void) {
    for (size_t at = 0; at < r.n * r.contribution; at++)
        r.contributions[at] = random_bit();
    for (uint32_t party = 0; party < r.n; party++)
        for (uint32_t offset = 0; offset < r.moduli; offset++)
            r.contributions[party * r.contribution + offset * r.k] = 1;
    for (uint32_t input = 0; input < r.inputs; input++)
        r.values[input] = random_bit();
}

static void make_room(uint32_t n, uint32_t k) {
    r.n = n, r.k = k;
    r.contribution = (size_t)k * r.moduli + (size_t)(k + 1) * r.records;
    r.rows_length = (size_t)r.rows * n * k;
    r.keys_length = (size_t)r.inputs * n * k;
    r.wire_keys_length = (size_t)r.wires * n * k;
    free(r.contributions), free(r.row_bytes), free(r.keys), free(r.wire_keys), free(r.wire_externals);
    r.contributions = room(n * r.contribution);
    r.row_bytes = room(r.rows_length);
    r.keys = room(r.keys_length);
    r.wire_keys = room(r.wire_keys_length);
    r.wire_externals = room(r.wires);
    draw_contributions();
}

static void garble(void) {
    lupiknam_meter meter;
    lupiknam_meter_carry(0, &meter);
    must(lupiknam_garble(r.file, r.file_length, r.n, r.k, 0, 0, r.contributions, r.n * r.contribution, r.row_bytes, r.rows_length,
                         r.input_masks, r.inputs, r.output_masks, (size_t)r.n * r.outputs, &meter),
         "garble");
}

// the external values of one party's inputs, which are the words from 1 on
static void externals(uint32_t party) {
    uint8_t values[1024], masks[1024], written[1024];
    size_t own = 0;
    for (uint32_t input = 0; input < r.inputs; input++)
        if ((word(1 + input) >> 16 & 0xFF) == party) {
            values[own] = r.values[input];
            masks[own++] = r.input_masks[input];
        }
    must(lupiknam_externals(r.file, r.file_length, r.n, party, values, own, masks, own, written, own), "externals");
    own = 0;
    for (uint32_t input = 0; input < r.inputs; input++)
        if ((word(1 + input) >> 16 & 0xFF) == party)
            r.externals[input] = written[own++];
}

// one party's keys, put in their places among all
static void input_keys(uint32_t party) {
    uint8_t *own = room((size_t)r.inputs * r.k);
    must(lupiknam_input_keys(r.file, r.file_length, r.n, r.k, party, r.contributions + party * r.contribution, r.contribution, r.externals,
                             r.inputs, own, (size_t)r.inputs * r.k),
         "input_keys");
    for (uint32_t input = 0; input < r.inputs; input++)
        memcpy(r.keys + ((size_t)input * r.n + party) * r.k, own + (size_t)input * r.k, r.k);
    free(own);
}

static void open_at_0(void) {
    must(lupiknam_open(r.file, r.file_length, r.n, r.k, 0, 0, r.contributions, r.contribution, r.externals, r.inputs, r.keys, r.keys_length,
                       r.row_bytes, r.rows_length, r.wire_keys, r.wire_keys_length, r.wire_externals, r.wires),
         "open");
}

// the first sheet is party 0's, and no output of these files names a party
static void decode_at_0(void) {
    must(lupiknam_decode(r.file, r.file_length, r.n, 0, r.wire_externals, r.wires, r.output_masks, r.outputs, r.decoded, r.outputs),
         "decode");
}

static void compare_figures(void) {
    must(lupiknam_plain(r.file, r.file_length, r.values, r.inputs, r.plain, r.outputs), "plain");
    if (memcmp(r.decoded, r.plain, r.outputs) != 0) {
        puts("a round decodes other outputs than the plain circuit's");
        exit(1);
    }
}

// a round must come out right before its calls are timed
static void play_round(void) {
    garble();
    for (uint32_t party = 0; party < r.n; party++)
        externals(party);
    for (uint32_t party = 0; party < r.n; party++)
        input_keys(party);
    open_at_0();
    decode_at_0();
    compare_figures();
}

// 17 + K bytes and the padding are taken in, 8K bytes given out, 136 at a time; the first block out needs no permutation of its own
static size_t permutations(size_t pads) {
    size_t pad = (17 + r.k) / 136 + 1 + (8 * r.k + 135) / 136 - 1;
    return pads * pad;
}

static double baseline(size_t count) {
    static uint64_t state[25];
    double start = now();
    for (size_t i = 0; i < count; i++)
        baseline_permutation(state);
    return now() - start;
}

// kind: what a point is called, NULL where none is printed
static void time_call(const char *name, const char *kind, void (*call)(void), uint32_t rows, size_t pads) {
    double times[MOST_RUNS], ratios[MOST_RUNS], spent = 0;
    size_t needed = permutations(pads);
    int runs = 0;
    while (runs < LEAST_RUNS || (runs < MOST_RUNS && spent < 1e9)) {
        double start = now();
        call();
        times[runs] = now() - start;
        ratios[runs] = times[runs] / baseline(needed);
        spent += times[runs++];
    }
    double ratio = median(ratios, runs), time = median(times, runs);
    printf("%s ratio=%.3f ns=%.0f rows=%u\n", name, ratio, time, (unsigned)rows);
    if (kind)
        printf("point call=%s n=%u k=%u rows=%u ms=%.4f permutations=%zu ratio=%.3f\n", kind, (unsigned)r.n, (unsigned)r.k,
               (unsigned)r.rows, time / 1e6, needed, ratio);
    fflush(stdout);
}

static void read_again(void) {
    uint32_t c[6];
    must(lupiknam_read(r.file, r.file_length, c, c + 1, c + 2, c + 3, c + 4, c + 5), "read");
}

static void load_records(void) {
    must(lupiknam_records(r.file, r.file_length, w.list, r.wires + r.outputs, w.tables, w.tables_length), "records");
}

static void write_records(void) {
    must(lupiknam_write(w.list, r.wires + r.outputs, w.tables, w.tables_length, w.file, r.file_length, &w.words), "write");
}

// the time of one of many calls, each too short for the clock
static double time_of(void (*call)(void), int calls) {
    double start = now();
    for (int i = 0; i < calls; i++)
        call();
    return (now() - start) / calls;
}

static void beside(const char *name, void (*call)(void), void (*other)(void), int calls) {
    double times[SHORT_RUNS], ratios[SHORT_RUNS];
    for (int run = 0; run < SHORT_RUNS; run++) {
        times[run] = time_of(call, calls);
        ratios[run] = times[run] / time_of(other, calls);
    }
    printf("%s ratio=%.2f ns=%.0f\n", name, median(ratios, SHORT_RUNS), median(times, SHORT_RUNS));
    fflush(stdout);
}

// the file must come back out of its records before the calls are timed
static void writing(void) {
    for (size_t at = 0; 4 * at < r.file_length; at++)
        w.tables_length += word(at) >> 28 == 7;
    w.tables = room(w.tables_length);
    w.file = room(r.file_length);
    load_records();
    write_records();
    if (4 * (size_t)w.words != r.file_length || memcmp(w.file, r.file, r.file_length) != 0) {
        puts("a file's records are not written as the same bytes");
        exit(1);
    }
    beside("write-usual", write_records, read_again, SHORT_CALLS);
    beside("records-usual", load_records, read_again, SHORT_CALLS);
}

// ---- bundles; what the engine writes, and what a loop in C writes in its place

static const uint64_t primes[10] = {2, 3, 5, 7, 11, 13, 17, 19, 23, 29};

static struct {
    uint32_t r, words, words_in_c;
    uint64_t product, constant, integer, joined, joined_in_c;
    uint64_t weights[10]; // 1 modulo the prime of the same place, 0 modulo the others
    uint8_t residues[10], residues_in_c[10], part[4 * 139], part_in_c[4 * 139];
} b;

static void split(void) {
    must(lupiknam_bundle_split(b.r, b.integer, b.residues, b.r), "bundle_split");
}

__attribute__((noinline)) static void split_in_c(void) {
    for (uint32_t i = 0; i < b.r; i++)
        b.residues_in_c[i] = (uint8_t)(b.integer % primes[i]);
}

static void join(void) {
    must(lupiknam_bundle_join(b.r, b.residues, b.r, &b.joined), "bundle_join");
}

__attribute__((noinline)) static void join_in_c(void) {
    uint64_t sum = 0;
    for (uint32_t i = 0; i < b.r; i++)
        sum += b.residues[i] * b.weights[i];
    b.joined_in_c = sum % b.product;
}

static uint8_t *lay(uint8_t *at, uint32_t laid) {
    for (int byte = 0; byte < 4; byte++)
        *at++ = (uint8_t)(laid >> 8 * byte);
    return at;
}

// bundles at wires 0 and 100, the part at 200
static void add(void) {
    must(lupiknam_bundle_add(b.r, 200, 0, 100, b.part, sizeof b.part, &b.words), "bundle_add");
}

static void multiply(void) {
    must(lupiknam_bundle_multiply(b.r, 200, 0, 100, b.part, sizeof b.part, &b.words), "bundle_multiply");
}

static void scale(void) {
    must(lupiknam_bundle_scale(b.r, 200, b.constant, 0, b.part, sizeof b.part, &b.words), "bundle_scale");
}

static void pairs_in_c(uint32_t kind) {
    uint8_t *at = b.part_in_c;
    for (uint32_t i = 0; i < b.r; i++)
        at = lay(at, kind << 28 | i << 10 | (100 + i));
    b.words_in_c = b.r;
}

__attribute__((noinline)) static void add_in_c(void) {
    pairs_in_c(3);
}

__attribute__((noinline)) static void multiply_in_c(void) {
    pairs_in_c(5);
}

__attribute__((noinline)) static void scale_in_c(void) {
    uint8_t *at = b.part_in_c;
    for (uint32_t i = 0; i < b.r; i++) {
        uint32_t p = (uint32_t)primes[i], constant = (uint32_t)(b.constant % primes[i]);
        at = lay(at, constant ? 4u << 28 | constant << 10 | i : 6u << 28 | p << 10 | i);
        for (uint32_t value = 0; constant == 0 && value < p; value++)
            at = lay(at, 7u << 28);
    }
    b.words_in_c = (uint32_t)(at - b.part_in_c) / 4;
}

// both must have written the same before they are timed
static void beside_c(const char *name, void (*call)(void), void (*in_c)(void)) {
    call();
    in_c();
    if (memcmp(b.residues, b.residues_in_c, b.r) != 0 || b.joined != b.joined_in_c || b.words != b.words_in_c
        || memcmp(b.part, b.part_in_c, 4 * (size_t)b.words) != 0) {
        printf("%s: the engine writes something else than C\n", name);
        exit(1);
    }
    beside(name, call, in_c, BUNDLE_CALLS);
}

static void take_primes(uint32_t r) {
    b.r = r;
    b.product = 1;
    for (uint32_t i = 0; i < r; i++)
        b.product *= primes[i];
    for (uint32_t i = 0; i < r; i++)
        for (b.weights[i] = b.product / primes[i]; b.weights[i] % primes[i] != 1;)
            b.weights[i] += b.product / primes[i];
    b.integer = b.product - 1 - b.product / 7;
}

static void bundles(void) {
    char name[60];
    for (size_t at = 0; at < 3; at++) {
        take_primes((uint32_t[]){2, 5, 10}[at]);
        snprintf(name, sizeof name, "split-r%u", (unsigned)b.r);
        beside_c(name, split, split_in_c);
        snprintf(name, sizeof name, "join-r%u", (unsigned)b.r);
        beside_c(name, join, join_in_c);
    }
    beside_c("part-add-r10", add, add_in_c);
    beside_c("part-multiply-r10", multiply, multiply_in_c);
    b.constant = 15; // 18 words, two projects among them
    beside_c("part-scale15-r10", scale, scale_in_c);
    b.constant = 0; // 139 words
    beside_c("part-scale0-r10", scale, scale_in_c);
}

// a row has a pad of each sender for each receiver
static void both(const char *what, uint32_t n, uint32_t k, int points) {
    char name[60];
    make_room(n, k);
    play_round();
    snprintf(name, sizeof name, "garble%s-n%u-k%u", what, (unsigned)n, (unsigned)k);
    time_call(name, points ? "garble" : NULL, garble, r.rows, (size_t)r.rows * n * n);
    snprintf(name, sizeof name, "open%s-n%u-k%u", what, (unsigned)n, (unsigned)k);
    time_call(name, points ? "open" : NULL, open_at_0, r.opened_rows, (size_t)r.opened_rows * n * n);
}

// ---- the two-party form

static struct {
    uint32_t rows, halves;
    size_t draw_length, rows_length, keys_length, wire_keys_length;
    uint8_t *draw, *row_bytes, *keys, *wire_keys;
} two;

// owners 0 and 1, and for each selector the sum of its branches, which stand in its second word
static void leave_selectors_out(void) {
    uint8_t *to = r.file;
    two.halves = 0;
    for (size_t at = 0; 4 * at < r.file_length; at++) {
        uint32_t laid = word(at), kind = laid >> 28;
        if (kind != 8)
            to = lay(to, kind == 9 ? 3u << 28 | (laid & 0xFFFFF) : kind == 2 ? laid & ~0xFE0000u : laid);
        two.halves += kind == 5 ? 2 : kind == 6;
    }
    r.file_length = (size_t)(to - r.file);
    count_file();
    must(lupiknam_pair_read(r.file, r.file_length, &two.rows), "pair_read");
}

// bytes below every modulus, and offsets that begin with 1
static void make_room_for_two(uint32_t k) {
    r.k = k;
    two.draw_length = (size_t)k * (r.moduli + r.inputs);
    two.rows_length = (size_t)k * two.rows;
    two.keys_length = (size_t)k * r.inputs;
    two.wire_keys_length = (size_t)k * r.wires;
    free(two.draw), free(two.row_bytes), free(two.keys), free(two.wire_keys);
    two.draw = room(two.draw_length);
    two.row_bytes = room(two.rows_length);
    two.keys = room(two.keys_length);
    two.wire_keys = room(two.wire_keys_length);
    for (size_t at = 0; at < two.draw_length; at++)
        two.draw[at] = at % k == 0 && at / k < r.moduli ? 1 : random_bit();
}

static void garble_for_two(void) {
    lupiknam_meter meter;
    lupiknam_meter_carry(0, &meter);
    must(lupiknam_pair_garble(r.file, r.file_length, r.k, 0, 0, two.draw, two.draw_length, two.row_bytes, two.rows_length, r.output_masks,
                              r.outputs, &meter),
         "pair_garble");
}

static void open_for_two(void) {
    must(lupiknam_pair_open(r.file, r.file_length, r.k, 0, two.keys, two.keys_length, two.row_bytes, two.rows_length, two.wire_keys,
                            two.wire_keys_length, r.wire_externals, r.wires),
         "pair_open");
}

static void play_for_two(void) {
    garble_for_two();
    must(lupiknam_pair_input_keys(r.file, r.file_length, r.k, two.draw, two.draw_length, r.values, r.inputs, two.keys, two.keys_length),
         "pair_input_keys");
    open_for_two();
    must(lupiknam_pair_decode(r.file, r.file_length, r.wire_externals, r.wires, r.output_masks, r.outputs, r.decoded, r.outputs),
         "pair_decode");
    compare_figures();
}

static void for_two(uint32_t k) {
    char name[60];
    both("-for-two", 2, k, 0);
    make_room_for_two(k);
    play_for_two();
    snprintf(name, sizeof name, "pair-garble-k%u", (unsigned)k);
    time_call(name, NULL, garble_for_two, two.rows, (size_t)two.rows + two.halves);
    snprintf(name, sizeof name, "pair-open-k%u", (unsigned)k);
    time_call(name, NULL, open_for_two, two.halves, two.halves);
}

int main(int count, char **files) {
    if (count < 2)
        return 2;
    bundles();
    read_file(files[1]);
    writing();
    for (size_t at = 0; at < 6; at++)
        both("", (uint32_t[]){3, 5, 8}[at / 2], (uint32_t[]){16, 128}[at % 2], 1);
    // growth with the number of parties; the inputs have three owners
    for (uint32_t n = 3; n <= 8; n++)
        both("-by-n", n, 16, 1);
    // growth with the rows
    for (int at = 1; at < count; at++) {
        read_file(files[at]);
        for (size_t i = 0; i < 3; i++)
            both("-by-rows", (uint32_t[]){3, 5, 8}[i], 16, 1);
    }
    // two parties, in a ring and in their own form
    read_file(files[1]);
    leave_selectors_out();
    for_two(16);
    for_two(128);
    return 0;
}
