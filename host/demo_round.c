// Plays a round of a circuit file on this one machine: all parties by turns, through the engine's calls. Prints the price list, the rows of
// both forms, who owns which input, each party's figures beside the plain circuit's, the rows of each account, the bytes that a party sends
// and the time that each call took.
//
//   demo_round FILE [--pair] [--parties N] [--key-length K] [--values A,B,...] [--round N] [--seed N] [--integers R]
//              [--account A] [--meter PATH] [--carry TOTAL]
//
// Where an output names parties, those alone read it: in the columns of the others stands -.
//
// With --pair the circuit, which has no selectors and inputs of parties 0 and 1 alone, is played in the two-party form: one side garbles,
// the other opens. The price list is then that form's, and the parties that outputs name are passed over.
//
// With --integers, outputs that are a bundle of R, that is, R in a row whose moduli are the first R primes and which the same parties read,
// are shown as one integer.
//
// The rows are charged to account A, 0 where none is given. With --meter the totals of all accounts go on from run to run in the file PATH,
// as a unit keeps them (meter_file.h); without it they end with the run. With --carry they start from TOTAL, the one total that a unit had
// before there were accounts, or 0 for a new unit; the file, where one is named, is made and must not be there yet. With neither they start
// at 0.
//
// One process holds every party's secrets here, and prints their values: this shows a round, it does not keep one.
//
// Ends with 0 if all figures decoded are the plain circuit's, each at the parties that may read it and at no other, with 1 if the engine
// refuses or a figure differs, and with 2 if the command is wrong or the machine does not give what it needs.
#define _POSIX_C_SOURCE 200809L
#include "lupiknam.h"
#include "meter_file.h"
#include <errno.h>
#include <signal.h>
#include <stdarg.h>
#include <stdbool.h>
#include <stdio.h>
#include <stdlib.h>
#include <string.h>
#include <time.h>
#include <unistd.h>

enum { MOST_WIRES = 1024, MOST_OUTPUTS = 256, MOST_PARTIES = 8, MOST_PRIMES = 10, ACCOUNTS = 8 };

// what stands for a mask or a figure that a party may not read
enum { NOT_READ = 255 };

// of a bundle: the first r of them
static const uint8_t primes[MOST_PRIMES] = {2, 3, 5, 7, 11, 13, 17, 19, 23, 29};

// No circuit has more than 258,306 words: a head, 1,024 wires of at most 252 words each, 256 outputs and an end. Of a longer file the
// reader refuses a word before that, so that the rest of it need not be read.
enum { MOST_BYTES = 1 << 21 };

enum kind { INPUT = 2, ADD, SCALE, MULTIPLY, PROJECT, ENTRY, SELECT, BRANCHES, OUTPUT };

// as the command has them; NULL where it has none
struct options {
    const char *path, *parties, *key_length, *values, *round, *seed, *integers, *account, *meter, *carry;
    bool pair;
};

struct wire {
    uint32_t kind, owner, modulus, rows;
    uint32_t keys;      // in a party's record of this wire
    uint32_t pair_rows; // in the two-party form
};

struct circuit {
    uint8_t *file;
    size_t length;
    uint32_t wires, inputs, outputs, rows, moduli, record_keys; // as lupiknam_read counts them
    uint32_t pair_rows;                                         // as lupiknam_pair_read counts them
    lupiknam_answer pair;                                       // what that call answered
    struct wire wire[MOST_WIRES];
    uint32_t output[MOST_OUTPUTS]; // the wire of each
    uint32_t named[MOST_OUTPUTS];  // the parties that may read it, a bit each; 0 for all
};

// the calls that are timed, and the one that only --integers needs
enum call { READ, PAIR_READ, PLAIN, GARBLE, EXTERNALS, INPUT_KEYS, OPEN, DECODE, PAIR_GARBLE, PAIR_INPUT_KEYS, PAIR_OPEN, PAIR_DECODE, TIMED,
            JOIN = TIMED, CALLS };

static const char *const call_names[CALLS] = {"read", "pair_read", "plain", "garble", "externals", "input_keys", "open", "decode",
                                              "pair_garble", "pair_input_keys", "pair_open", "pair_decode", "bundle_join"};

struct round {
    const struct circuit *circuit;
    bool pair;                      // the two-party form, in which what is contributed is the draw
    uint32_t n, k, number, account; // the number of the round, and the account that pays for it
    uint32_t readers;               // who decode: all parties, or the opener
    size_t contribution_length, rows_length, keys_length, wire_keys_length;
    uint8_t *contributions, *rows, *keys, *own_keys, *wire_keys;
    uint8_t values[MOST_WIRES], input_masks[MOST_WIRES], externals[MOST_WIRES], wire_externals[MOST_WIRES];
    uint8_t output_masks[MOST_PARTIES * MOST_OUTPUTS]; // a sheet for each party, or in the two-party form one for all
    uint8_t plain[MOST_OUTPUTS], figures[MOST_PARTIES][MOST_OUTPUTS];
    lupiknam_meter meter;                     // rows garbled, for each account
    const char *meter_path;                   // its file; NULL where it has none
    uint32_t carried;                         // the total that a meter is made of
    bool makes_meter;                         // else it is loaded
    uint32_t owned[MOST_PARTIES];             // inputs of each party
    double milliseconds[TIMED][MOST_PARTIES]; // party 0's place where a call is made once
    uint32_t integers;                        // primes of a bundle among the outputs; 0 where bundles are not looked for
};

// ---- ending early

__attribute__((format(printf, 1, 2), noreturn)) static void stop(const char *why, ...) {
    va_list rest;
    va_start(rest, why);
    fflush(stdout);
    fputs("demo_round: ", stderr);
    vfprintf(stderr, why, rest);
    fputc('\n', stderr);
    va_end(rest);
    exit(2);
}

static void *room(size_t bytes) {
    // a length of 0 must not look like a want of memory
    void *at = malloc(bytes + 1);
    if (!at)
        stop("no memory for %zu bytes", bytes);
    return at;
}

// what the place of a refusal counts
static const char *place_of(uint32_t number) {
    switch (number) {
    case 12:
        return "party";
    case 13:
    case 19:
    case 20:
        return "wire";
    case 15:
        return "value";
    case 16:
    case 18:
        return "byte";
    case 17:
    case 27:
        return "modulus";
    case 28:
        return "output";
    default:
        return NULL;
    }
}

static void print_place(lupiknam_answer answer) {
    if (answer.number <= 10 || answer.number == 26)
        fprintf(stderr, ", at word %zu (byte offset %zu of the file)", answer.place, 4 * answer.place);
    else if (place_of(answer.number))
        fprintf(stderr, ", at %s %zu", place_of(answer.number), answer.place);
}

static void must(lupiknam_answer answer, enum call call) {
    if (answer.number == 0)
        return;
    fflush(stdout);
    fprintf(stderr, "demo_round: %s refused with %u: %s", call_names[call], (unsigned)answer.number, lupiknam_refusal(answer.number));
    print_place(answer);
    fputc('\n', stderr);
    exit(1);
}

// ---- time, and a sign of life in a long call

// A call says nothing until it returns, so the sign comes from a signal each second: first what runs, then dots. The handler may only
// write.
static char what_runs[80];
static size_t what_runs_length;
static volatile sig_atomic_t seconds;

static void second_passed(int signal_number) {
    (void)signal_number;
    ssize_t written = seconds++ == 0 ? write(STDERR_FILENO, what_runs, what_runs_length) : write(STDERR_FILENO, ".", 1);
    (void)written; // nothing is lost with it
    alarm(1);
}

static void listen_for_seconds(void) {
    struct sigaction action = {.sa_handler = second_passed, .sa_flags = SA_RESTART};
    sigemptyset(&action.sa_mask);
    sigaction(SIGALRM, &action, NULL);
}

static double milliseconds_now(void) {
    struct timespec t;
    clock_gettime(CLOCK_MONOTONIC, &t);
    return (double)t.tv_sec * 1e3 + (double)t.tv_nsec / 1e6;
}

__attribute__((format(printf, 1, 2))) static double start(const char *what, ...) {
    va_list rest;
    va_start(rest, what);
    vsnprintf(what_runs, sizeof what_runs, what, rest);
    va_end(rest);
    what_runs_length = strlen(what_runs);
    seconds = 0;
    alarm(1);
    return milliseconds_now();
}

static double start_at(enum call call, uint32_t party, uint32_t parties) {
    return start("%s at party %u of %u ", call_names[call], (unsigned)party, (unsigned)parties);
}

static double spent_since(double begun) {
    double spent = milliseconds_now() - begun;
    alarm(0);
    if (seconds > 0)
        fputc('\n', stderr);
    return spent;
}

// ---- drawing

struct source {
    FILE *bytes; // NULL for the repeatable generator
    uint64_t state;
};

// SplitMix64, its highest byte. Whoever knows the seed knows every key: for repeating a demonstration, and for nothing else.
static uint8_t repeatable_byte(uint64_t *state) {
    uint64_t z = *state += 0x9E3779B97F4A7C15u;
    z = (z ^ z >> 30) * 0xBF58476D1CE4E5B9u;
    z = (z ^ z >> 27) * 0x94D049BB133111EBu;
    return (uint8_t)((z ^ z >> 31) >> 56);
}

static struct source open_source(const uint64_t *seed) {
    struct source source = {NULL, 0};
    if (seed)
        source.state = *seed;
    else if (!(source.bytes = fopen("/dev/urandom", "rb")))
        stop("/dev/urandom: %s", strerror(errno));
    return source;
}

static uint32_t draw_byte(struct source *source) {
    if (!source->bytes)
        return repeatable_byte(&source->state);
    int byte = getc(source->bytes);
    if (byte == EOF)
        stop("/dev/urandom gives no more");
    return (uint32_t)byte;
}

// Each residue alike: bytes past the last whole run of residues are drawn again, or the low residues would come more often.
static uint8_t draw_below(struct source *source, uint32_t modulus) {
    uint32_t runs_end = 256 - 256 % modulus, byte;
    do
        byte = draw_byte(source);
    while (byte >= runs_end);
    return (uint8_t)(byte % modulus);
}

// writes so many residues, and says whether one of them is not zero
static bool draw_residues(struct source *source, uint8_t *at, size_t count, uint32_t modulus) {
    bool some = false;
    for (size_t i = 0; i < count; i++)
        some |= (at[i] = draw_below(source, modulus)) != 0;
    return some;
}

static bool has_modulus(const struct circuit *c, uint32_t modulus) {
    for (uint32_t w = 0; w < c->wires; w++)
        if (c->wire[w].modulus == modulus)
            return true;
    return false;
}

static void draw_offset(const struct round *r, struct source *source, uint8_t *at, uint32_t modulus) {
    if (r->pair) { // component 0 is 1, so that component 0 of a key is the external value
        *at = 1;
        draw_residues(source, at + 1, r->k - 1, modulus);
        return;
    }
    // an offset of zero would give every external value the same key
    while (!draw_residues(source, at, r->k, modulus)) {
    }
}

static uint8_t *draw_offsets(const struct round *r, struct source *source, uint8_t *at) {
    for (uint32_t modulus = 2; modulus <= 251; modulus++)
        if (has_modulus(r->circuit, modulus)) {
            draw_offset(r, source, at, modulus);
            at += r->k;
        }
    return at;
}

// keys and shares of a wire's record alike are below its modulus
static uint8_t *draw_records(const struct round *r, struct source *source, uint8_t *at) {
    for (uint32_t w = 0; w < r->circuit->wires; w++) {
        size_t bytes = (size_t)r->circuit->wire[w].keys * (r->k + 1);
        draw_residues(source, at, bytes, r->circuit->wire[w].modulus);
        at += bytes;
    }
    return at;
}

// the garbler's draw has zero keys for the inputs alone
static void draw_for_two(struct round *r, struct source *source) {
    uint8_t *at = draw_offsets(r, source, r->contributions);
    for (uint32_t i = 0; i < r->circuit->inputs; i++, at += r->k)
        draw_residues(source, at, r->k, r->circuit->wire[i].modulus);
}

static void draw_contributions(struct round *r, struct source *source) {
    uint8_t *at = r->contributions;
    for (uint32_t party = 0; party < r->n; party++)
        at = draw_records(r, source, draw_offsets(r, source, at));
}

static void draw_values(struct round *r, struct source *source) {
    for (uint32_t i = 0; i < r->circuit->inputs; i++)
        r->values[i] = draw_below(source, r->circuit->wire[i].modulus);
}

// ---- the circuit

static void load(struct circuit *c, const char *path) {
    FILE *f = fopen(path, "rb");
    if (!f)
        stop("%s: %s", path, strerror(errno));
    c->file = room(MOST_BYTES);
    c->length = fread(c->file, 1, MOST_BYTES, f);
    if (ferror(f))
        stop("%s: %s", path, strerror(errno));
    fclose(f);
}

static uint32_t word_at(const struct circuit *c, size_t at) {
    const uint8_t *b = c->file + 4 * at;
    return b[0] | (uint32_t)b[1] << 8 | (uint32_t)b[2] << 16 | (uint32_t)b[3] << 24;
}

// the wire that the low ten bits of a word name
static const struct wire *wire_named(const struct circuit *c, uint32_t word) {
    return &c->wire[word & 0x3FF];
}

// is it a multiply of a wire by itself? It has the rows and the record of a projection, but of a bit it is a copy, which has neither
static bool is_square(uint32_t word) {
    return word >> 28 == MULTIPLY && (word >> 10 & 0x3FF) == (word & 0x3FF);
}

// the wire that a word of an accepted file starts; a select's moduli stand in the word after it
static struct wire wire_of(const struct circuit *c, uint32_t word, uint32_t next) {
    uint32_t kind = word >> 28, p = wire_named(c, kind == SELECT ? next : word)->modulus;
    switch (kind) {
    case INPUT:
        return (struct wire){kind, word >> 16 & 0xFF, word & 0xFF, 0, 1, 0};
    case PROJECT:
        return (struct wire){kind, 0, word >> 10 & 0xFF, p, 1, p - 1};
    case MULTIPLY: // in the two-party form a square is a product like any other, of a bit too
        if (is_square(word))
            return p == 2 ? (struct wire){kind, 0, p, 0, 0, 2 * p - 2} : (struct wire){kind, 0, p, p, 1, 2 * p - 2};
        return (struct wire){kind, 0, p, 2 * p, 2, 2 * p - 2};
    case SELECT: // which the two-party form has not
        return (struct wire){kind, 0, p, 2 * p + 2, 3, 0};
    default: // add, scale
        return (struct wire){kind, 0, p, 0, 0, 0};
    }
}

static bool starts_wire(uint32_t kind) {
    return kind >= INPUT && kind <= SELECT && kind != ENTRY;
}

// The engine's calls tell sizes, not wires; the price list, the owners and the drawing need these. Only for a file that was accepted: then
// there is an end word after every other.
static void list_wires(struct circuit *c) {
    uint32_t wires = 0, outputs = 0;
    for (size_t at = 0; 4 * at + 4 < c->length; at++) {
        uint32_t word = word_at(c, at), kind = word >> 28;
        if (starts_wire(kind))
            c->wire[wires++] = wire_of(c, word, word_at(c, at + 1));
        else if (kind == OUTPUT) {
            c->named[outputs] = word >> 10 & 0xFF;
            c->output[outputs++] = word & 0x3FF;
        }
    }
}

// The two-party form passes over the parties that outputs name.
static void forget_names(struct circuit *c) {
    memset(c->named, 0, sizeof c->named);
}

static bool may_read(const struct circuit *c, uint32_t party, uint32_t output) {
    return c->named[output] == 0 || c->named[output] >> party & 1;
}

// the rows of a wire, in a ring or in the two-party form
static uint32_t rows_of(const struct wire *wire, bool pair) {
    return pair ? wire->pair_rows : wire->rows;
}

static void check_rows(const struct circuit *c, bool pair, uint32_t counted) {
    uint32_t listed = 0;
    for (uint32_t w = 0; w < c->wires; w++)
        listed += rows_of(&c->wire[w], pair);
    if (listed != counted)
        stop("the price list has %u rows, the engine counts %u", (unsigned)listed, (unsigned)counted);
}

static double read_circuit(struct circuit *c, const char *path) {
    load(c, path);
    double begun = start("read ");
    lupiknam_answer answer = lupiknam_read(c->file, c->length, &c->wires, &c->inputs, &c->outputs, &c->rows, &c->moduli, &c->record_keys);
    double spent = spent_since(begun);
    must(answer, READ);
    list_wires(c);
    check_rows(c, false, c->rows);
    return spent;
}

// The rows of the two-party form, or that a selector bars it; only --pair insists. That call looks at no owner: print_rows and garbling do.
static double read_for_two(struct circuit *c, bool insists) {
    double begun = start("pair_read ");
    c->pair = lupiknam_pair_read(c->file, c->length, &c->pair_rows);
    double spent = spent_since(begun);
    if (insists || c->pair.number != 26)
        must(c->pair, PAIR_READ);
    if (c->pair.number == 0)
        check_rows(c, true, c->pair_rows);
    return spent;
}

// as many parties as the owners of the inputs need
static uint32_t parties_entering(const struct circuit *c) {
    uint32_t most = 1;
    for (uint32_t i = 0; i < c->inputs; i++)
        if (c->wire[i].owner > most)
            most = c->wire[i].owner;
    return most + 1;
}

// and those who read the outputs, too
static uint32_t parties_needed(const struct circuit *c) {
    uint32_t count = parties_entering(c);
    for (uint32_t o = 0; o < c->outputs; o++)
        while (c->named[o] >> count > 0)
            count++;
    return count;
}

// ---- the calls of a round

static enum call garbling(const struct round *r) {
    return r->pair ? PAIR_GARBLE : GARBLE;
}

// Garbles a file in the form that is played. For two there are no input masks to write.
static lupiknam_answer garble_file(const struct round *r, const uint8_t *file, size_t length, uint32_t account,
                                   const uint8_t *contributions, size_t contributions_length, uint8_t *rows, size_t rows_length,
                                   uint8_t *input_masks, size_t inputs, uint8_t *output_masks, size_t outputs, lupiknam_meter *meter) {
    if (r->pair)
        return lupiknam_pair_garble(file, length, r->k, r->number, account, contributions, contributions_length, rows, rows_length,
                                    output_masks, outputs, meter);
    return lupiknam_garble(file, length, r->n, r->k, r->number, account, contributions, contributions_length, rows, rows_length, input_masks,
                           inputs, output_masks, outputs, meter);
}

// Whether n and K will do is the engine's to say, and before memory is sought for them: 11, 13 and 28 come before 14, which a garbling that
// is lent nothing meets in any case.
static void check_session(const struct round *r) {
    const struct circuit *c = r->circuit;
    lupiknam_meter meter;
    lupiknam_meter_carry(0, &meter);
    lupiknam_answer answer = garble_file(r, c->file, c->length, 0, NULL, 0, NULL, 0, NULL, 0, NULL, 0, &meter);
    if (answer.number != 14)
        must(answer, garbling(r));
}

// the rows that are garbled
static uint32_t garbled_rows(const struct round *r) {
    return r->pair ? r->circuit->pair_rows : r->circuit->rows;
}

// whose keys there are, and sheets of output masks: every party's, or the garbler's
static uint32_t holders(const struct round *r) {
    return r->pair ? 1 : r->n;
}

static const uint8_t *sheet_of(const struct round *r, uint32_t party) {
    return r->output_masks + (size_t)party * r->circuit->outputs;
}

static void make_room(struct round *r) {
    const struct circuit *c = r->circuit;
    const size_t key = r->k, row = key * holders(r);
    r->contribution_length = r->pair ? key * (c->moduli + c->inputs) : key * c->moduli + (key + 1) * c->record_keys;
    r->rows_length = garbled_rows(r) * row;
    r->keys_length = c->inputs * row;
    r->wire_keys_length = c->wires * row;
    r->contributions = room(holders(r) * r->contribution_length);
    r->rows = room(r->rows_length);
    r->keys = room(r->keys_length);
    r->own_keys = room((size_t)c->inputs * r->k);
    r->wire_keys = room(r->wire_keys_length);
}

static void give_back_room(struct round *r) {
    free(r->contributions);
    free(r->rows);
    free(r->keys);
    free(r->own_keys);
    free(r->wire_keys);
}

static uint8_t *contribution_of(const struct round *r, uint32_t party) {
    return r->contributions + party * r->contribution_length;
}

static void evaluate_plainly(struct round *r) {
    const struct circuit *c = r->circuit;
    double begun = start("plain ");
    lupiknam_answer answer = lupiknam_plain(c->file, c->length, r->values, c->inputs, r->plain, c->outputs);
    r->milliseconds[PLAIN][0] = spent_since(begun);
    must(answer, PLAIN);
}

// a circuit of one input and its projection, of so many rows, or of one less in the two-party form
enum { TRIAL_ROWS = 251, TRIAL_WORDS = TRIAL_ROWS + 5 };

static uint8_t *put_word(uint8_t *at, uint32_t word) {
    for (uint32_t byte = 0; byte < 4; byte++)
        *at++ = (uint8_t)(word >> 8 * byte);
    return at;
}

static void write_trial(uint8_t *at) {
    at = put_word(at, 0x10000000);
    at = put_word(at, 0x20000000 | TRIAL_ROWS); // its modulus
    at = put_word(at, 0x60000800);              // of wire 0, to modulus 2
    for (int entry = 0; entry < TRIAL_ROWS; entry++)
        at = put_word(at, 0x70000000);
    at = put_word(at, 0xA0000001);
    put_word(at, 0xB0000000);
}

// The time goes by the rows, whatever the gates: garbling a few with the same n and K tells about how long all of them will take. Nobody
// gets these rows and nobody pays for them: the meter is one of their own.
static double seconds_to_garble(const struct round *r) {
    uint8_t file[4 * TRIAL_WORDS], input_mask, output_masks[MOST_PARTIES];
    const size_t key = r->k, contributions_length = r->pair ? 3 * key : r->n * (2 * key + 2 * (key + 1));
    const size_t rows_length = r->pair ? (TRIAL_ROWS - 1) * key : TRIAL_ROWS * r->n * key;
    uint8_t *contributions = room(contributions_length), *rows = room(rows_length);
    lupiknam_meter meter;
    lupiknam_meter_carry(0, &meter);
    write_trial(file);
    memset(contributions, 1, contributions_length); // below both moduli, and no offset zero; in each component 0 is 1
    double begun = milliseconds_now();
    lupiknam_answer answer = garble_file(r, file, sizeof file, 0, contributions, contributions_length, rows, rows_length, &input_mask, 1,
                                         output_masks, holders(r), &meter);
    double spent = milliseconds_now() - begun;
    must(answer, garbling(r));
    free(contributions);
    free(rows);
    return spent / TRIAL_ROWS * garbled_rows(r) / 1e3;
}

static void garble(struct round *r) {
    const struct circuit *c = r->circuit;
    double begun = start("garble, %u rows, about %.0f s ", (unsigned)garbled_rows(r), seconds_to_garble(r));
    lupiknam_answer answer =
        garble_file(r, c->file, c->length, r->account, r->contributions, holders(r) * r->contribution_length, r->rows, r->rows_length,
                    r->input_masks, c->inputs, r->output_masks, (size_t)holders(r) * c->outputs, &r->meter);
    r->milliseconds[garbling(r)][0] = spent_since(begun);
    must(answer, garbling(r));
}

// The totals before a garbling: of a new meter or of one that is carried over, for which the file is made; else as the file has them.
static void take_meter(struct round *r) {
    const char *wrong = NULL;
    if (r->makes_meter)
        lupiknam_meter_carry(r->carried, &r->meter);
    if (r->meter_path)
        wrong = r->makes_meter ? meter_create(r->meter_path, &r->meter) : meter_load(r->meter_path, &r->meter);
    if (wrong)
        stop("%s: %s", r->meter_path, wrong);
}

static void keep_meter(const struct round *r) {
    const char *wrong = r->meter_path ? meter_save(r->meter_path, &r->meter) : NULL;
    if (wrong)
        stop("%s: %s: the rows are not handed on; the file has the totals from before or from now", r->meter_path, wrong);
}

// From the totals that are loaded to those that are saved no other process may garble, or its rows would go uncounted. A refused garbling
// leaves the totals, and the file too.
static void garble_for_account(struct round *r) {
    int lock = -1;
    const char *wrong = r->meter_path ? meter_lock(r->meter_path, &lock) : NULL;
    if (wrong)
        stop("%s: %s", r->meter_path, wrong);
    take_meter(r);
    garble(r);
    keep_meter(r); // before any party has a row
    if (r->meter_path)
        close(lock);
}

// takes a party's own bytes out of those of all inputs
static uint32_t own_part(const struct circuit *c, uint32_t party, const uint8_t *all, uint8_t *own) {
    uint32_t count = 0;
    for (uint32_t i = 0; i < c->inputs; i++)
        if (c->wire[i].owner == party)
            own[count++] = all[i];
    return count;
}

// puts a party's own bytes in their places among those of all inputs
static void put_own_part(const struct circuit *c, uint32_t party, const uint8_t *own, uint8_t *all) {
    for (uint32_t i = 0; i < c->inputs; i++)
        if (c->wire[i].owner == party)
            all[i] = *own++;
}

static void make_externals(struct round *r, uint32_t party) {
    const struct circuit *c = r->circuit;
    uint8_t values[MOST_WIRES], masks[MOST_WIRES], externals[MOST_WIRES];
    uint32_t own = r->owned[party] = own_part(c, party, r->values, values);
    own_part(c, party, r->input_masks, masks);
    double begun = start_at(EXTERNALS, party, r->n);
    lupiknam_answer answer = lupiknam_externals(c->file, c->length, r->n, party, values, own, masks, own, externals, own);
    r->milliseconds[EXTERNALS][party] = spent_since(begun);
    must(answer, EXTERNALS);
    put_own_part(c, party, externals, r->externals);
}

// a party's keys lie input after input; among all parties' those of one input lie side by side
static void put_own_keys(struct round *r, uint32_t party) {
    for (uint32_t i = 0; i < r->circuit->inputs; i++)
        memcpy(r->keys + ((size_t)i * r->n + party) * r->k, r->own_keys + (size_t)i * r->k, r->k);
}

static void make_input_keys(struct round *r, uint32_t party) {
    const struct circuit *c = r->circuit;
    double begun = start_at(INPUT_KEYS, party, r->n);
    lupiknam_answer answer = lupiknam_input_keys(c->file, c->length, r->n, r->k, party, contribution_of(r, party), r->contribution_length,
                                                 r->externals, c->inputs, r->own_keys, (size_t)c->inputs * r->k);
    r->milliseconds[INPUT_KEYS][party] = spent_since(begun);
    must(answer, INPUT_KEYS);
    put_own_keys(r, party);
}

static void open_rows(struct round *r, uint32_t party) {
    const struct circuit *c = r->circuit;
    double begun = start_at(OPEN, party, r->n);
    lupiknam_answer answer =
        lupiknam_open(c->file, c->length, r->n, r->k, party, r->number, contribution_of(r, party), r->contribution_length, r->externals,
                      c->inputs, r->keys, r->keys_length, r->rows, r->rows_length, r->wire_keys, r->wire_keys_length, r->wire_externals,
                      c->wires);
    r->milliseconds[OPEN][party] = spent_since(begun);
    must(answer, OPEN);
}

// a party has its own sheet and no other
static void decode(struct round *r, uint32_t party) {
    const struct circuit *c = r->circuit;
    double begun = start_at(DECODE, party, r->readers);
    lupiknam_answer answer = lupiknam_decode(c->file, c->length, r->n, party, r->wire_externals, c->wires, sheet_of(r, party), c->outputs,
                                             r->figures[party], c->outputs);
    r->milliseconds[DECODE][party] = spent_since(begun);
    must(answer, DECODE);
}

// The garbler has all values here. In the field the opener gets the keys of its own inputs by oblivious transfer, which is no part of the
// engine.
static void make_input_keys_for_two(struct round *r) {
    const struct circuit *c = r->circuit;
    double begun = start("pair_input_keys ");
    lupiknam_answer answer = lupiknam_pair_input_keys(c->file, c->length, r->k, r->contributions, r->contribution_length, r->values,
                                                      c->inputs, r->keys, r->keys_length);
    r->milliseconds[PAIR_INPUT_KEYS][0] = spent_since(begun);
    must(answer, PAIR_INPUT_KEYS);
}

static void open_rows_for_two(struct round *r) {
    const struct circuit *c = r->circuit;
    double begun = start("pair_open ");
    lupiknam_answer answer = lupiknam_pair_open(c->file, c->length, r->k, r->number, r->keys, r->keys_length, r->rows, r->rows_length,
                                                r->wire_keys, r->wire_keys_length, r->wire_externals, c->wires);
    r->milliseconds[PAIR_OPEN][0] = spent_since(begun);
    must(answer, PAIR_OPEN);
}

static void decode_for_two(struct round *r) {
    const struct circuit *c = r->circuit;
    double begun = start("pair_decode ");
    lupiknam_answer answer =
        lupiknam_pair_decode(c->file, c->length, r->wire_externals, c->wires, r->output_masks, c->outputs, r->figures[0], c->outputs);
    r->milliseconds[PAIR_DECODE][0] = spent_since(begun);
    must(answer, PAIR_DECODE);
}

// the garbler garbles and makes the keys, the opener opens and, having the output masks, decodes
static void play_for_two(struct round *r) {
    evaluate_plainly(r);
    garble_for_account(r);
    make_input_keys_for_two(r);
    open_rows_for_two(r);
    decode_for_two(r);
}

// every party needs all external values for its keys, and all keys to open
static void play(struct round *r) {
    evaluate_plainly(r);
    garble_for_account(r);
    for (uint32_t party = 0; party < r->n; party++)
        make_externals(r, party);
    for (uint32_t party = 0; party < r->n; party++)
        make_input_keys(r, party);
    for (uint32_t party = 0; party < r->n; party++) {
        open_rows(r, party);
        decode(r, party);
    }
}

// ---- what is printed

static void print_prices(const struct round *r) {
    const struct circuit *c = r->circuit;
    puts("wire kind modulus rows");
    for (uint32_t w = 0; w < c->wires; w++)
        printf("%u %u %u %u\n", (unsigned)w, (unsigned)c->wire[w].kind, (unsigned)c->wire[w].modulus,
               (unsigned)rows_of(&c->wire[w], r->pair));
    printf("total %u\n", (unsigned)garbled_rows(r));
}

// of both forms, whichever is played; with an owner above 1 garbling for two would refuse the circuit
static void print_rows(const struct circuit *c) {
    printf("\nrows of a garbling: %u in a ring, ", (unsigned)c->rows);
    if (c->pair.number == 0)
        printf("%u in the two-party form%s\n", (unsigned)c->pair_rows, parties_entering(c) > 2 ? ", but an owner is above 1" : "");
    else
        printf("none in the two-party form: %s, at word %zu\n", lupiknam_refusal(c->pair.number), c->pair.place);
}

static void print_inputs(const struct round *r) {
    puts("\ninputs, and the party that owns each\nwire modulus party value");
    for (uint32_t i = 0; i < r->circuit->inputs; i++)
        printf("%4u %7u %5u %5u\n", (unsigned)i, (unsigned)r->circuit->wire[i].modulus, (unsigned)r->circuit->wire[i].owner,
               (unsigned)r->values[i]);
}

// do the outputs from this one on begin with a bundle? A party reads the whole of it or nothing
static bool is_bundle(const struct circuit *c, uint32_t output, uint32_t count) {
    if (count == 0 || count > c->outputs - output)
        return false;
    for (uint32_t i = 0; i < count; i++)
        if (c->wire[c->output[output + i]].modulus != primes[i] || c->named[output + i] != c->named[output])
            return false;
    return true;
}

static bool has_bundle(const struct circuit *c, uint32_t count) {
    for (uint32_t o = 0; o < c->outputs; o++)
        if (is_bundle(c, o, count))
            return true;
    return false;
}

// what a figure is below: the modulus of its wire, or of a bundle the product of its primes
static uint64_t limit_of(const struct circuit *c, uint32_t output, uint32_t count) {
    uint64_t product = 1;
    if (!is_bundle(c, output, count))
        return c->wire[c->output[output]].modulus;
    for (uint32_t i = 0; i < count; i++)
        product *= primes[i];
    return product;
}

// the figure of an output, or of the bundle that begins there
static uint64_t figure_at(const struct round *r, const uint8_t *bytes, uint32_t output) {
    uint64_t integer = bytes[output];
    if (is_bundle(r->circuit, output, r->integers))
        must(lupiknam_bundle_join(r->integers, bytes + output, r->integers, &integer), JOIN);
    return integer;
}

static bool names_parties(const struct circuit *c) {
    for (uint32_t o = 0; o < c->outputs; o++)
        if (c->named[o] != 0)
            return true;
    return false;
}

static void print_figures_head(const struct round *r) {
    const int wide = r->integers ? 10 : 0; // digits of the largest product
    printf("\nfigures: the plain circuit's, and what %s decodes\n", r->pair ? "the opener" : "each party");
    if (names_parties(r->circuit))
        puts("- stands where the party may not read the output");
    printf("output wire %*s %*s", wide, "modulus", wide, "plain");
    if (r->pair)
        printf(" %*s", wide ? wide : 7, "opener");
    for (uint32_t party = 0; !r->pair && party < r->n; party++)
        printf(" %*s %u", wide ? wide - 2 : 0, "party", (unsigned)party);
    putchar('\n');
}

// What a party decoded, as it is: a figure that it may not read, and all the same has, is shown.
static void print_decoded(const struct round *r, uint32_t reader, uint32_t output, int wide) {
    if (r->figures[reader][output] == NOT_READ)
        printf(" %*s", wide, "-");
    else
        printf(" %*llu", wide, (unsigned long long)figure_at(r, r->figures[reader], output));
}

static void print_figures(const struct round *r) {
    const struct circuit *c = r->circuit;
    const int wide = r->integers ? 10 : 7, plain_wide = r->integers ? 10 : 5;
    print_figures_head(r);
    for (uint32_t o = 0; o < c->outputs; o += is_bundle(c, o, r->integers) ? r->integers : 1) {
        printf("%6u %4u %*llu %*llu", (unsigned)o, (unsigned)c->output[o], wide, (unsigned long long)limit_of(c, o, r->integers),
               plain_wide, (unsigned long long)figure_at(r, r->plain, o));
        for (uint32_t reader = 0; reader < r->readers; reader++)
            print_decoded(r, reader, o, wide);
        putchar('\n');
    }
}

static void complain_of(const struct round *r, uint32_t reader, const char *what) {
    fflush(stdout);
    if (r->pair)
        fputs("demo_round: the opener", stderr);
    else
        fprintf(stderr, "demo_round: party %u", (unsigned)reader);
    fprintf(stderr, " decodes %s\n", what);
}

// Of the outputs that a reader may read, or of those that it may not: are all bytes as they should be?
static bool decoded_well(const struct round *r, uint32_t reader, bool readable) {
    for (uint32_t o = 0; o < r->circuit->outputs; o++)
        if (may_read(r->circuit, reader, o) == readable && r->figures[reader][o] != (readable ? r->plain[o] : NOT_READ))
            return false;
    return true;
}

// names each party whose figures are not the plain circuit's, or not its to read, and says whether there is none
static bool print_verdict(const struct round *r) {
    bool all = true;
    for (uint32_t reader = 0; reader < r->readers; reader++) {
        if (!decoded_well(r, reader, true))
            complain_of(r, reader, "other figures than the plain circuit's");
        if (!decoded_well(r, reader, false))
            complain_of(r, reader, "an output that it may not read");
        all = all && decoded_well(r, reader, true) && decoded_well(r, reader, false);
    }
    if (all)
        puts("The decoded figures are those of the plain circuit.");
    return all;
}

// FNV-1a: shows whether two runs garbled the same rows; it protects nothing
static uint64_t checksum(const uint8_t *bytes, size_t length) {
    uint64_t sum = 0xCBF29CE484222325u;
    for (size_t at = 0; at < length; at++)
        sum = (sum ^ bytes[at]) * 0x100000001B3u;
    return sum;
}

static void print_totals(const struct round *r) {
    printf("total of account %u: %u rows; of accounts 0 to 7:", (unsigned)r->account, (unsigned)r->meter.totals[r->account]);
    for (uint32_t account = 0; account < ACCOUNTS; account++)
        printf(" %u", (unsigned)r->meter.totals[account]);
    putchar('\n');
}

static void print_garbled(const struct round *r) {
    printf("\nrows garbled: %u, each ", (unsigned)garbled_rows(r));
    if (!r->pair)
        printf("%u parties x ", (unsigned)r->n);
    printf("%u bytes: %zu bytes\n", (unsigned)r->k, r->rows_length);
    print_totals(r);
    printf("checksum of the rows: %016llx\n", (unsigned long long)checksum(r->rows, r->rows_length));
}

static void print_bytes_for_two(const struct round *r) {
    size_t masks = r->circuit->outputs;
    printf("\nbytes that the garbler sends to the opener. Its draw, %zu bytes, it keeps.\n"
           "In the field the keys of the opener's own inputs go by oblivious transfer, which takes more bytes than the keys.\n",
           r->contribution_length);
    puts("   rows input keys output masks     all");
    printf("%7zu %10zu %12zu %7zu\n", r->rows_length, r->keys_length, masks, r->rows_length + r->keys_length + masks);
}

static void print_bytes(const struct round *r) {
    puts("\nbytes that a party sends: its contribution to the garbling, the external values of its own inputs, its keys on all inputs.\n"
         "Each is counted once, however many take it; the rows are not counted.\n"
         "party contribution externals input keys     all");
    for (uint32_t party = 0; party < r->n; party++) {
        size_t externals = r->owned[party], keys = (size_t)r->circuit->inputs * r->k;
        printf("%5u %12zu %9zu %10zu %7zu\n", (unsigned)party, r->contribution_length, externals, keys,
               r->contribution_length + externals + keys);
    }
}

static bool made_once(enum call call) {
    return call == READ || call == PLAIN || call == GARBLE;
}

static void print_times_for_two(const struct round *r) {
    puts("\ntime of each call in milliseconds");
    for (enum call call = READ; call < TIMED; call++)
        if (call < GARBLE || call > DECODE)
            printf("%-15s %9.3f\n", call_names[call], r->milliseconds[call][0]);
}

static void print_times(const struct round *r) {
    puts("\ntime of each call in milliseconds; where every party makes it, party 0's first");
    for (enum call call = READ; call <= DECODE; call++) {
        if (call == PAIR_READ)
            continue;
        printf("%-10s", call_names[call]);
        for (uint32_t party = 0; party < (made_once(call) ? 1 : r->n); party++)
            printf(" %9.3f", r->milliseconds[call][party]);
        putchar('\n');
    }
}

// ---- the command

__attribute__((noreturn)) static void usage(void) {
    stop("usage: demo_round FILE [--pair] [--parties N] [--key-length K] [--values A,B,...] [--round N] [--seed N] [--integers R] "
         "[--account A] [--meter PATH] [--carry TOTAL]");
}

// the number that a text begins with; *text is left after it
static uint64_t take_number(const char **text, uint64_t most, const char *option) {
    const char *at = *text;
    uint64_t number = 0;
    bool fits = *at >= '0' && *at <= '9';
    for (; fits && *at >= '0' && *at <= '9'; at++) {
        uint64_t digit = (uint64_t)(*at - '0');
        fits = number <= (most - digit) / 10 && digit <= most;
        number = 10 * number + digit;
    }
    if (!fits)
        stop("%s: '%s' does not begin with a number from 0 to %llu", option, *text, (unsigned long long)most);
    *text = at;
    return number;
}

static uint64_t number_in(const char *text, uint64_t most, const char *option) {
    uint64_t number = take_number(&text, most, option);
    if (*text)
        stop("%s: '%s' follows the number", option, text);
    return number;
}

static uint32_t number_32_in(const char *text, const char *option) {
    return (uint32_t)number_in(text, UINT32_MAX, option);
}

static const char **place_for(struct options *options, const char *name) {
    if (strcmp(name, "--parties") == 0)
        return &options->parties;
    if (strcmp(name, "--key-length") == 0)
        return &options->key_length;
    if (strcmp(name, "--values") == 0)
        return &options->values;
    if (strcmp(name, "--round") == 0)
        return &options->round;
    if (strcmp(name, "--seed") == 0)
        return &options->seed;
    if (strcmp(name, "--integers") == 0)
        return &options->integers;
    if (strcmp(name, "--account") == 0)
        return &options->account;
    if (strcmp(name, "--meter") == 0)
        return &options->meter;
    if (strcmp(name, "--carry") == 0)
        return &options->carry;
    usage();
}

static struct options options_from(int count, char **arguments) {
    struct options options = {.key_length = "16", .round = "0", .account = "0"};
    if (count < 2)
        usage();
    options.path = arguments[1];
    for (int at = 2; at < count; at++) {
        if (strcmp(arguments[at], "--pair") == 0) {
            options.pair = true;
            continue;
        }
        const char **place = place_for(&options, arguments[at]);
        if (++at == count)
            usage();
        *place = arguments[at];
    }
    if (options.pair && options.parties)
        stop("--parties does not go with --pair: the two-party form has two");
    return options;
}

// the primes of a bundle, of which there must be one among the outputs
static uint32_t primes_in(const char *text, const struct circuit *c) {
    uint32_t count = number_32_in(text, "--integers");
    if (count < 2 || count > MOST_PRIMES)
        stop("--integers: a bundle has 2 to %d primes", MOST_PRIMES);
    if (!has_bundle(c, count))
        stop("--integers: no bundle of %u among the outputs", (unsigned)count);
    return count;
}

static void take_values(struct round *r, const char *list) {
    uint32_t count = 0, inputs = r->circuit->inputs;
    for (const char *at = list;; at++) {
        uint8_t value = (uint8_t)take_number(&at, 255, "--values");
        if (count < inputs)
            r->values[count] = value;
        count++;
        if (*at != ',' && *at != '\0')
            stop("--values: '%s' follows a number", at);
        if (*at == '\0')
            break;
    }
    if (count != inputs)
        stop("--values has %u numbers, and the circuit %u inputs", (unsigned)count, (unsigned)inputs);
}

static struct source source_for(const struct options *options) {
    if (!options->seed)
        return open_source(NULL);
    uint64_t seed = number_in(options->seed, UINT64_MAX, "--seed");
    return open_source(&seed);
}

static void draw(struct round *r, const struct options *options) {
    struct source source = source_for(options);
    if (options->values)
        take_values(r, options->values);
    else
        draw_values(r, &source);
    if (r->pair)
        draw_for_two(r, &source);
    else
        draw_contributions(r, &source);
    if (source.bytes)
        fclose(source.bytes);
}

static bool print_round(const struct round *r) {
    print_inputs(r);
    print_figures(r);
    bool all = print_verdict(r);
    print_garbled(r);
    if (r->pair) {
        print_bytes_for_two(r);
        print_times_for_two(r);
    } else {
        print_bytes(r);
        print_times(r);
    }
    return all;
}

int main(int count, char **arguments) {
    static struct circuit circuit;
    static struct round round = {.circuit = &circuit};
    struct options options = options_from(count, arguments);
    listen_for_seconds();
    round.milliseconds[READ][0] = read_circuit(&circuit, options.path);
    round.milliseconds[PAIR_READ][0] = read_for_two(&circuit, options.pair);
    round.pair = options.pair;
    if (round.pair)
        forget_names(&circuit);
    round.n = options.parties ? number_32_in(options.parties, "--parties") : parties_needed(&circuit);
    round.readers = round.pair ? 1 : round.n;
    round.k = number_32_in(options.key_length, "--key-length");
    round.number = number_32_in(options.round, "--round");
    round.integers = options.integers ? primes_in(options.integers, &circuit) : 0;
    round.account = number_32_in(options.account, "--account");
    round.meter_path = options.meter;
    round.carried = options.carry ? number_32_in(options.carry, "--carry") : 0;
    round.makes_meter = options.carry || !options.meter;
    check_session(&round);
    print_prices(&round);
    print_rows(&circuit);
    fflush(stdout); // before what may take long
    make_room(&round);
    draw(&round, &options);
    if (round.pair)
        play_for_two(&round);
    else
        play(&round);
    bool all = print_round(&round);
    give_back_room(&round);
    free(circuit.file);
    return all ? 0 : 1;
}
