/*
 * Faults to try the harness on: `fuzz/run --planted` puts these calls in front of the archive's, which are then called engine_..., and the
 * harness must find each fault. PLANTED is the number of the fault to make, 1 to FAULTS.
 */
#include "lupiknam.h"
#include <stdlib.h>
#include <string.h>

enum { FAULTS = 95 }; /* fuzz/run reads this line */

#define FILE_PARAMETERS const uint8_t *file, size_t length
#define READ_ONLY(name) const uint8_t *name, size_t name##_length
#define WRITTEN(name) uint8_t *name, size_t name##_length

lupiknam_answer engine_read(FILE_PARAMETERS, uint32_t *, uint32_t *, uint32_t *, uint32_t *, uint32_t *, uint32_t *);
lupiknam_answer engine_inputs_of(FILE_PARAMETERS, uint32_t, uint32_t, uint32_t *);
lupiknam_answer engine_plain(FILE_PARAMETERS, READ_ONLY(values), WRITTEN(outputs));
lupiknam_answer engine_garble(FILE_PARAMETERS, uint32_t, uint32_t, uint32_t, uint32_t, READ_ONLY(contributions), WRITTEN(rows),
    WRITTEN(input_masks), WRITTEN(output_masks), lupiknam_meter *);
lupiknam_answer engine_externals(FILE_PARAMETERS, uint32_t, uint32_t, READ_ONLY(values), READ_ONLY(masks), WRITTEN(externals));
lupiknam_answer engine_input_keys(FILE_PARAMETERS, uint32_t, uint32_t, uint32_t, READ_ONLY(contribution), READ_ONLY(externals),
    WRITTEN(keys));
lupiknam_answer engine_open(FILE_PARAMETERS, uint32_t, uint32_t, uint32_t, uint32_t, READ_ONLY(contribution), READ_ONLY(externals),
    READ_ONLY(keys), READ_ONLY(rows), WRITTEN(wire_keys), WRITTEN(wire_externals));
lupiknam_answer engine_decode(FILE_PARAMETERS, uint32_t, uint32_t, READ_ONLY(externals), READ_ONLY(masks), WRITTEN(outputs));
lupiknam_answer engine_records(FILE_PARAMETERS, lupiknam_record *, size_t, WRITTEN(tables));
lupiknam_answer engine_write(const lupiknam_record *, size_t, READ_ONLY(tables), WRITTEN(file), uint32_t *);
lupiknam_answer engine_bundle_split(uint32_t, uint64_t, WRITTEN(residues));
lupiknam_answer engine_bundle_join(uint32_t, READ_ONLY(residues), uint64_t *);
lupiknam_answer engine_bundle_add(uint32_t, uint32_t, uint32_t, uint32_t, WRITTEN(file), uint32_t *);
lupiknam_answer engine_bundle_multiply(uint32_t, uint32_t, uint32_t, uint32_t, WRITTEN(file), uint32_t *);
lupiknam_answer engine_bundle_scale(uint32_t, uint32_t, uint64_t, uint32_t, WRITTEN(file), uint32_t *);
void engine_meter_carry(uint32_t, lupiknam_meter *);
lupiknam_answer engine_pair_read(FILE_PARAMETERS, uint32_t *);
lupiknam_answer engine_pair_garble(FILE_PARAMETERS, uint32_t, uint32_t, uint32_t, READ_ONLY(draw), WRITTEN(rows), WRITTEN(output_masks),
    lupiknam_meter *);
lupiknam_answer engine_pair_input_keys(FILE_PARAMETERS, uint32_t, READ_ONLY(draw), READ_ONLY(values), WRITTEN(keys));
lupiknam_answer engine_pair_open(FILE_PARAMETERS, uint32_t, uint32_t, READ_ONLY(keys), READ_ONLY(rows), WRITTEN(wire_keys),
    WRITTEN(wire_externals));
lupiknam_answer engine_pair_decode(FILE_PARAMETERS, READ_ONLY(externals), READ_ONLY(masks), WRITTEN(outputs));

static int planted(int number) {
    const char *given = getenv("PLANTED");
    return given && atoi(given) == number;
}

/* The first word of a file, from one on, that is of this kind; the number of words where there is none. */
static size_t word_of_kind(FILE_PARAMETERS, size_t from, unsigned kind) {
    while (from < length / 4 && file[4 * from + 3] >> 4 != kind)
        from++;
    return from;
}

/* Of an output of an accepted file: its word, the parties that it names, its wire, and whether a party may read it. */
static const uint8_t *output_word(FILE_PARAMETERS, size_t output) {
    return file + 4 * (word_of_kind(file, length, 1, 10) + output);
}

static unsigned named(FILE_PARAMETERS, size_t output) {
    const uint8_t *word = output_word(file, length, output);
    return word[1] >> 2 | (word[2] & 3u) << 6;
}

static uint32_t wire_of(FILE_PARAMETERS, size_t output) {
    const uint8_t *word = output_word(file, length, output);
    return word[0] | (uint32_t)(word[1] & 3) << 8;
}

static int may_read(FILE_PARAMETERS, uint32_t party, size_t output) {
    const unsigned names = named(file, length, output);
    return names == 0 || names >> party & 1;
}

static size_t outputs_of(FILE_PARAMETERS) {
    return length / 4 - 1 - word_of_kind(file, length, 1, 10);
}

/* The first output, from one on, that names a party at or above n; the number of outputs where there is none. */
static size_t absent(FILE_PARAMETERS, size_t from, uint32_t n) {
    while (from < outputs_of(file, length) && (n > 7 || named(file, length, from) >> n == 0))
        from++;
    return from;
}

/* A copy of an accepted file whose outputs name no party at or above n. */
static const uint8_t *without_absent(FILE_PARAMETERS, uint32_t n) {
    static uint8_t copy[1 << 19];
    memcpy(copy, file, length);
    for (size_t i = 0; i < outputs_of(file, length); i++) {
        uint8_t *word = (uint8_t *)(uintptr_t)output_word(copy, length, i);
        const unsigned names = named(file, length, i) & ((1u << n) - 1);
        word[1] = (uint8_t)((word[1] & 3) | names << 2);
        word[2] = (uint8_t)(names >> 6);
    }
    return copy;
}

/* The multiplies of a wire by itself in an accepted file: how many, and of each its wire and modulus. One of modulus 2 is a copy, the others are
   squares by table. */
static struct {
    uint16_t wire;
    uint8_t modulus;
} square[1024];

static uint32_t list_squares(FILE_PARAMETERS) {
    static uint8_t modulus[1024];
    uint32_t wires = 0, found = 0;
    for (size_t i = 4; i + 4 <= length; i += 4) {
        const uint32_t low = file[i] | (uint32_t)(file[i + 1] & 3) << 8, high = file[i + 1] >> 2 | (uint32_t)(file[i + 2] & 15) << 6;
        const unsigned kind = file[i + 3] >> 4;
        if (kind == 7 || kind == 8 || kind > 9) // a select makes its wire here at its second word
            continue;
        modulus[wires] = (uint8_t)(kind == 2 ? file[i] : kind == 6 ? high : modulus[low]);
        if (kind == 5 && low == high) {
            square[found].wire = (uint16_t)wires;
            square[found++].modulus = modulus[low];
        }
        wires++;
    }
    return found;
}

/* How many of them have this modulus. */
static uint32_t squares_of(FILE_PARAMETERS, unsigned modulus) {
    const uint32_t all = list_squares(file, length);
    uint32_t found = 0;
    for (uint32_t i = 0; i < all; i++)
        found += square[i].modulus == modulus;
    return found;
}

static uint32_t copies(FILE_PARAMETERS) {
    return squares_of(file, length, 2);
}

/* The wire of the first copy of a file that has one. */
static size_t first_copy(FILE_PARAMETERS) {
    uint32_t i = 0;
    list_squares(file, length);
    while (square[i].modulus != 2)
        i++;
    return square[i].wire;
}

lupiknam_answer lupiknam_read(FILE_PARAMETERS, uint32_t *wires, uint32_t *inputs, uint32_t *outputs, uint32_t *rows, uint32_t *moduli,
    uint32_t *records) {
    if (planted(1) && length > 0 && length % 4 == 0 && file[length] == 1) // looks at the byte after the file
        return (lupiknam_answer){1, 0};
    uint32_t c[6];
    static uint8_t copy[1 << 19];
    lupiknam_answer a = engine_read(file, length, c, c + 1, c + 2, c + 3, c + 4, c + 5);
    if (planted(82) && a.number == 2 && file[4 * a.place + 3] == 0xA0 && file[4 * a.place + 2] >> 2 == 1) { // bit 18 taken for a ninth party
        memcpy(copy, file, length);
        copy[4 * a.place + 2] &= 3;
        return engine_read(copy, length, wires, inputs, outputs, rows, moduli, records);
    }
    if (planted(81) && a.number == 0) // party 7's bit refused
        for (size_t i = 0; i < outputs_of(file, length); i++)
            if (named(file, length, i) >> 7)
                return (lupiknam_answer){2, word_of_kind(file, length, 1, 10) + i};
    if (planted(2) && a.number == 6) // a number written though the file is refused
        *records = 0;
    if (planted(3) && a.number == 0 && c[4] == 4) // a good file refused
        return (lupiknam_answer){4, 1};
    a = engine_read(file, length, wires, inputs, outputs, rows, moduli, records);
    if (a.number != 0)
        return a;
    if (planted(25)) // a square with the record of a product
        *records += list_squares(file, length) - copies(file, length);
    if (planted(86)) // a bit times itself with the rows of a square
        *rows += 2 * copies(file, length);
    if (planted(87)) // a bit times itself with the record of a square
        *records += copies(file, length);
    if (planted(88)) { // a square of modulus 3 taken for a copy
        *rows -= 3 * squares_of(file, length, 3);
        *records -= squares_of(file, length, 3);
    }
    return a;
}

lupiknam_answer lupiknam_inputs_of(FILE_PARAMETERS, uint32_t n, uint32_t party, uint32_t *count) {
    lupiknam_answer a = engine_inputs_of(file, length, n, party, count);
    if (planted(4) && a.number == 12) // a place left out
        a.place = 0;
    if (planted(67) && a.number == 28) // the output's wire for its index
        a.place = wire_of(file, length, a.place);
    if (planted(79) && a.number == 28) // the last such output
        for (size_t next = a.place; next < outputs_of(file, length); next = absent(file, length, next + 1, n))
            a.place = next;
    return a;
}

lupiknam_answer lupiknam_plain(FILE_PARAMETERS, READ_ONLY(values), WRITTEN(outputs)) {
    lupiknam_answer a = engine_plain(file, length, values, values_length, outputs, outputs_length);
    if (planted(5) && a.number == 0 && values_length == 5 && values[4] > 0) // a wrong figure, still below its modulus
        outputs[0] = outputs[0] == 0;
    return a;
}

/* Faults of an accepted garbling that has added so many rows to the named account's total. */
static void charge_wrongly(lupiknam_meter *meter, uint32_t account, uint32_t rows) {
    if (planted(35)) { // account 0 is charged, whichever is named
        meter->totals[account] -= rows;
        meter->totals[0] += rows;
    }
    for (uint32_t i = 0; planted(36) && i < 8; i++) // every account is charged
        meter->totals[i] += i == account ? 0 : rows;
}

/* Faults of copies after an accepted opening, the same at every party; every byte is still below its modulus. */
static void copy_wrongly(FILE_PARAMETERS, size_t row, uint8_t *wire_keys, uint8_t *wire_externals) {
    const uint32_t all = list_squares(file, length);
    for (uint32_t i = 0; i < all; i++)
        if (square[i].modulus == 2) {
            uint8_t *key = wire_keys + square[i].wire * row;
            if (planted(89)) // another external value
                wire_externals[square[i].wire] ^= 1;
            if (planted(90)) // another byte in the last party's key
                key[row - 1] ^= 1;
            if (planted(91) && file[4] == 2) // the keys of wire 0, whichever is copied
                memcpy(key, wire_keys, row);
        }
}

/* Faults of the sheets that an accepted garbling has written. */
static void hand_out_wrongly(FILE_PARAMETERS, uint32_t n, uint8_t *sheets) {
    const size_t outputs = outputs_of(file, length);
    uint8_t copy[8 * 256];
    memcpy(copy, sheets, n * outputs);
    for (size_t i = 0; i < n * outputs; i++) {
        const size_t output = i % outputs;
        uint32_t reader = 0;
        while (!may_read(file, length, reader, output))
            reader++;
        if (planted(64)) // all masks on every sheet
            sheets[i] = copy[reader * outputs + output];
        if (planted(65) && sheets[i] == 255) // 0 for 255
            sheets[i] = 0;
        if (planted(66) && named(file, length, output) == 0) // nobody named is nobody
            sheets[i] = 255;
        if (planted(77)) // the sheets of parties descending
            sheets[i] = copy[(n - 1 - i / outputs) * outputs + output];
        if (planted(84) && i / outputs == n - 1 && sheets[i] == 255) // a byte of the last sheet not written
            sheets[i] = 254;
    }
}

/* The total that 21 looks at, and from which the rows are counted: that of the named account, or, planted, the next one's. */
static uint32_t looked_at(uint32_t account) {
    return planted(38) ? (account + 1) % 8 : account;
}

lupiknam_answer lupiknam_garble(FILE_PARAMETERS, uint32_t n, uint32_t k, uint32_t round, uint32_t account, READ_ONLY(contributions),
    WRITTEN(rows), WRITTEN(input_masks), WRITTEN(output_masks), lupiknam_meter *meter) {
    lupiknam_meter before = *meter, full;
    memset(&full, 255, sizeof full);
    if (planted(23)) // the round in two bytes
        round &= 65535;
    if (planted(41)) // the low bits of the account
        account &= 7;
    if (account < 8)
        meter->totals[account] = before.totals[looked_at(account)];
#define GARBLE(account, meter)                                                                                                     \
    engine_garble(file, length, n, k, round, account, contributions, contributions_length, rows, rows_length, input_masks,         \
        input_masks_length, output_masks, output_masks_length, meter)
    lupiknam_answer a = GARBLE(account, meter);
    if (account < 8) {
        const uint32_t added = meter->totals[account] - before.totals[looked_at(account)];
        meter->totals[account] = before.totals[account] + added;
        if (a.number == 0)
            charge_wrongly(meter, account, added);
        if (planted(92) && a.number == 0) // a bit times itself charged with the rows of a square
            meter->totals[account] += 2 * copies(file, length);
    }
    if (planted(37) && a.number == 21) // a full account is filled up though the call is refused
        meter->totals[account] = UINT32_MAX;
    if (planted(39) && a.number == 25 && rows_length > 0) { // 25 after 16; with a full meter nothing is written
        lupiknam_answer other = GARBLE(0, &full);
        a = other.number == 16 ? other : a;
    }
    if (planted(40) && a.number == 14 && account > 7) // 25 before 14
        return (lupiknam_answer){25, 0};
    if (planted(6) && a.number == 17) // the meter counts though the call is refused
        ++meter->totals[account];
    if (planted(7) && a.number == 0 && n == 7) // a byte too many
        output_masks[output_masks_length] = 0;
    if (planted(8) && a.number == 0 && rows_length > 0) // the last byte not written
        rows[rows_length - 1] = 254;
    if (a.number == 0)
        hand_out_wrongly(file, length, n, output_masks);
    if (planted(73) && a.number == 13 && absent(file, length, 0, n) < outputs_of(file, length)) // 28 before 13
        return (lupiknam_answer){28, absent(file, length, 0, n)};
    if (planted(85) && a.number == 28 && account > 7) // 25 before 28
        return (lupiknam_answer){25, 0};
    if (planted(22) && a.number == 16) // a bad byte behind the lowest
        for (size_t i = a.place; i < contributions_length; i++)
            a.place = contributions[i] > 250 ? i : a.place;
    return a;
}

lupiknam_answer lupiknam_externals(FILE_PARAMETERS, uint32_t n, uint32_t party, READ_ONLY(values), READ_ONLY(masks), WRITTEN(externals)) {
    lupiknam_answer a = engine_externals(file, length, n, party, values, values_length, masks, masks_length, externals, externals_length);
    if (planted(9) && a.number == 0 && masks_length > 1) // writes what it should only read, the byte that is there
        ((volatile uint8_t *)(uintptr_t)masks)[1] = masks[1];
    if (planted(72) && a.number == 28 && values_length != masks_length) // 28 after 14
        return (lupiknam_answer){14, 0};
    return a;
}

lupiknam_answer lupiknam_input_keys(FILE_PARAMETERS, uint32_t n, uint32_t k, uint32_t party, READ_ONLY(contribution), READ_ONLY(externals),
    WRITTEN(keys)) {
    lupiknam_answer a = engine_input_keys(file, length, n, k, party, contribution, contribution_length, externals, externals_length, keys,
        keys_length);
    if (planted(10) && a.number == 16) // a byte written though the call is refused
        keys[keys_length - 1] = 0;
    if (planted(93) && a.number == 14 && copies(file, length) > 0) { // a contribution with a record for each copy taken
        uint32_t c[6];
        engine_read(file, length, c, c + 1, c + 2, c + 3, c + 4, c + 5);
        const size_t size = (size_t)k * c[4] + ((size_t)k + 1) * c[5];
        if (contribution_length == size + ((size_t)k + 1) * copies(file, length))
            return engine_input_keys(file, length, n, k, party, contribution, size, externals, externals_length, keys, keys_length);
    }
    return a;
}

lupiknam_answer lupiknam_open(FILE_PARAMETERS, uint32_t n, uint32_t k, uint32_t party, uint32_t round, READ_ONLY(contribution),
    READ_ONLY(externals), READ_ONLY(keys), READ_ONLY(rows), WRITTEN(wire_keys), WRITTEN(wire_externals)) {
    if (planted(24)) // the round ignored
        round = 0;
    lupiknam_answer a = engine_open(file, length, n, k, party, round, contribution, contribution_length, externals, externals_length, keys,
        keys_length, rows, rows_length, wire_keys, wire_keys_length, wire_externals, wire_externals_length);
    if (planted(11) && a.number == 20) // not all zero after 20
        wire_keys[wire_keys_length / 2] = 1;
    if (planted(12) && a.number == 19) // another place
        a.place++;
    if (planted(95) && a.number == 20 && copies(file, length) > 0) // 20 at a bit times itself
        a.place = first_copy(file, length);
    if (a.number == 0)
        copy_wrongly(file, length, (size_t)n * k, wire_keys, wire_externals);
    if (planted(13) && a.number == 0 && n > 2 && party == 2) // another key at one party, still below its modulus
        wire_keys[0] = wire_keys[0] == 0;
    if (planted(78) && a.number == 28) // a reader that does not take part taken
        return engine_open(without_absent(file, length, n), length, n, k, party, round, contribution, contribution_length, externals,
            externals_length, keys, keys_length, rows, rows_length, wire_keys, wire_keys_length, wire_externals, wire_externals_length);
    return a;
}

lupiknam_answer lupiknam_decode(FILE_PARAMETERS, uint32_t n, uint32_t party, READ_ONLY(externals), READ_ONLY(masks), WRITTEN(outputs)) {
    if (planted(83) && n >= 2 && n <= 8) // any party taken, by its remainder
        party %= n;
    lupiknam_answer a = engine_decode(file, length, n, party, externals, externals_length, masks, masks_length, outputs, outputs_length);
    if (planted(14) && a.number == 14) // a byte before the buffer
        memset(outputs - 1, 0, 1);
    while (planted(15) && a.number == 0 && outputs_length == 2) // does not end
        continue;
    for (size_t i = 0; a.number == 0 && i < outputs_length; i++) {
        if (planted(68) && outputs[i] == 255 && masks[i] > 250 && masks[i] < 255) { // a mask judged that is to be passed over
            memset(outputs, 254, outputs_length);
            return (lupiknam_answer){15, i};
        }
        if (planted(70) && named(file, length, i) == 0) // nobody named is nobody
            outputs[i] = 255;
        if (planted(71) && outputs[i] == 255) // 0 for what may not be read
            outputs[i] = 0;
    }
    return a;
}

lupiknam_answer lupiknam_records(FILE_PARAMETERS, lupiknam_record *records, size_t count, WRITTEN(tables)) {
    lupiknam_answer a = engine_records(file, length, records, count, tables, tables_length);
    if (planted(16) && a.number == 0 && records[count - 1].a == 2) // a field that an output does not use
        records[count - 1].modulus = 5;
    if (planted(17) && a.number == 0 && tables_length > 2) // the last entry not written
        tables[tables_length - 1] = 254;
    if (planted(76) && a.number == 0) // the names left out
        records[count - 1].named = 0;
    return a;
}

/* Records with a fault of their own in front of the writer. */
static lupiknam_answer write_changed(const lupiknam_record *records, size_t count, READ_ONLY(tables), WRITTEN(file), uint32_t *words) {
    static lupiknam_record changed[1 << 17];
    for (size_t i = 0; i < count; i++) {
        changed[i] = records[i];
        if (planted(18)) // wires as the low ten bits of a word have them
            changed[i].a &= 1023;
        if (planted(74) && changed[i].kind == 10) // an output's names dropped
            changed[i].named = 0;
        if (planted(75) && changed[i].kind != 10) // names in another record passed over
            changed[i].named = 0;
    }
    return engine_write(changed, count, tables, tables_length, file, file_length, words);
}

lupiknam_answer lupiknam_write(const lupiknam_record *records, size_t count, READ_ONLY(tables), WRITTEN(file), uint32_t *words) {
    if (planted(18) || planted(74) || planted(75))
        return write_changed(records, count, tables, tables_length, file, file_length, words);
    lupiknam_answer a = engine_write(records, count, tables, tables_length, file, file_length, words);
    if (planted(19) && a.number == 0 && file_length > 4 * (size_t)*words) // a byte past the words
        file[4 * (size_t)*words] = 0;
    if (planted(20) && a.number == 22) // a number written though the call is refused
        *words = 0;
    if (planted(21) && a.number == 9 && a.place > 0) // the last record's place
        a.place--;
    return a;
}

lupiknam_answer lupiknam_bundle_split(uint32_t r, uint64_t integer, WRITTEN(residues)) {
    lupiknam_answer a = engine_bundle_split(r, integer, residues, residues_length);
    if (planted(26) && a.number == 24) // a residue written though the call is refused
        residues[r - 1] = 0;
    return a;
}

lupiknam_answer lupiknam_bundle_join(uint32_t r, READ_ONLY(residues), uint64_t *integer) {
    uint8_t taken[10];
    if (planted(27) && r == 10 && residues_length == r && residues[9] == 29) { // a residue at its prime taken for 0
        memcpy(taken, residues, r);
        taken[9] = 0;
        return engine_bundle_join(r, taken, r, integer);
    }
    lupiknam_answer a = engine_bundle_join(r, residues, residues_length, integer);
    if (planted(28) && a.number == 0) // the integer in 32 bits
        *integer &= UINT32_MAX;
    return a;
}

lupiknam_answer lupiknam_bundle_add(uint32_t r, uint32_t first, uint32_t a, uint32_t b, WRITTEN(file), uint32_t *words) {
    if (planted(29) && b + r < r) // a bundle that ends past 2^32
        b = 0;
    if (planted(30) && first == 1024 - r) // the last wires refused
        first++;
    return engine_bundle_add(r, first, a, b, file, file_length, words);
}

lupiknam_answer lupiknam_bundle_multiply(uint32_t r, uint32_t first, uint32_t a, uint32_t b, WRITTEN(file), uint32_t *words) {
    lupiknam_answer answer = engine_bundle_multiply(r, first, a, b, file, file_length, words);
    if (planted(31) && answer.number == 0) // the last gate takes the low byte of wire a for that of wire b
        memcpy(file + 4 * r - 4, (uint8_t[]){(uint8_t)(a + r - 1)}, 1);
    return answer;
}

lupiknam_answer lupiknam_bundle_scale(uint32_t r, uint32_t first, uint64_t constant, uint32_t a, WRITTEN(file), uint32_t *words) {
    if (planted(32) && r >= 2 && r <= 10 && a >= first) // 5 before 24
        return (lupiknam_answer){5, 0};
    lupiknam_answer answer = engine_bundle_scale(r, first, constant, a, file, file_length, words);
    if (planted(33) && answer.number == 0 && file[3] == 0x60) // a project that is not to 0
        file[8] = 1;
    if (planted(34) && answer.number == 0 && file_length > 4 * (size_t)*words) // a byte past the words
        file[4 * (size_t)*words] = 0;
    return answer;
}

void lupiknam_meter_carry(uint32_t total, lupiknam_meter *meter) {
    const lupiknam_meter before = *meter;
    engine_meter_carry(total, meter);
    if (planted(42)) // an old total left standing
        meter->totals[7] = before.totals[7];
    if (planted(43)) // the old total added to what stands there
        meter->totals[0] += before.totals[0];
}

/* The index of the first input whose owner is above 1; of the first word that is no input where there is none. */
static size_t stranger(FILE_PARAMETERS) {
    size_t at = 1;
    while (4 * at + 4 <= length && file[4 * at + 3] == 0x20 && file[4 * at + 2] < 2)
        at++;
    return at;
}

lupiknam_answer lupiknam_pair_read(FILE_PARAMETERS, uint32_t *rows) {
    uint32_t found = *rows, c[6];
    lupiknam_answer a = engine_pair_read(file, length, &found);
    const size_t select = word_of_kind(file, length, 1, 8), at = stranger(file, length);
    if (planted(44) && a.number == 0 && list_squares(file, length) > 0) // a square with the rows of a ring's
        engine_read(file, length, c, c + 1, c + 2, &found, c + 4, c + 5);
    if (planted(94) && a.number == 0) // a bit times itself is a copy for two as well
        found -= 2 * copies(file, length);
    if (planted(45) && a.number == 0 && file[4 * at + 3] == 0x20) // an owner above 1 refused
        return (lupiknam_answer){13, at - 1};
    if (planted(46) && a.number == 26) // the place of the last selector
        for (size_t next = select; next < length / 4; next = word_of_kind(file, length, next + 1, 8))
            a.place = next;
    if (planted(47) && a.number > 1 && a.number <= 10 && select < a.place) // 26 before a fault behind the selector
        return (lupiknam_answer){26, select};
    if (planted(48) && a.number == 26) // a number written though the call is refused
        found = 0;
    *rows = found;
    return a;
}

static uint8_t mended_draw[1 << 18];

/* A draw whose offsets all begin with 1. */
static void mend_draw(uint32_t k, uint32_t moduli, READ_ONLY(draw)) {
    memcpy(mended_draw, draw, draw_length);
    for (size_t i = 0; i < moduli && i * k < draw_length; i++)
        mended_draw[i * k] = 1;
}

lupiknam_answer lupiknam_pair_garble(FILE_PARAMETERS, uint32_t k, uint32_t round, uint32_t account, READ_ONLY(draw), WRITTEN(rows),
    WRITTEN(output_masks), lupiknam_meter *meter) {
    uint32_t c[6];
    lupiknam_meter full;
    memset(&full, 255, sizeof full);
#define PAIR_GARBLE(draw, account, meter)                                                                                          \
    engine_pair_garble(file, length, k, round, account, draw, draw_length, rows, rows_length, output_masks, output_masks_length, meter)
    if (planted(61)) // the low bits of the account
        account &= 7;
    lupiknam_answer a = PAIR_GARBLE(draw, account, meter);
    engine_read(file, length, c, c + 1, c + 2, c + 3, c + 4, c + 5);
    if (planted(49) && a.number == 0 && rows_length > 0) // the rows of a ring charged
        meter->totals[account] += c[3] - (uint32_t)(rows_length / k);
    if (planted(50) && a.number == 27) { // an offset with any component 0 taken
        mend_draw(k, c[4], draw, draw_length);
        return PAIR_GARBLE(mended_draw, account, meter);
    }
    if (planted(51) && a.number == 27) // the meter counts though the call is refused
        ++meter->totals[account];
    if (planted(52) && a.number == 16 && rows_length > 0) { // 27 before 16; with a full meter nothing is written
        memset(mended_draw, 0, draw_length);
        for (size_t i = 0; i < c[4]; i++)
            mended_draw[i * k] = draw[i * k] == 1;
        lupiknam_answer other = PAIR_GARBLE(mended_draw, 0, &full);
        a = other.number == 27 ? other : a;
    }
    if (planted(53) && a.number == 0) // the last mask not written
        output_masks[output_masks_length - 1] = 254;
    if (planted(54) && a.number == 25 && rows_length > 0) { // 25 after 16; with a full meter nothing is written
        lupiknam_answer other = PAIR_GARBLE(draw, 0, &full);
        a = other.number == 16 ? other : a;
    }
    if (planted(55) && a.number == 26 && (k == 0 || k > 128)) // 11 before 26
        return (lupiknam_answer){11, 0};
    return a;
}

lupiknam_answer lupiknam_pair_input_keys(FILE_PARAMETERS, uint32_t k, READ_ONLY(draw), READ_ONLY(values), WRITTEN(keys)) {
    static uint8_t owned[1 << 19];
    lupiknam_answer a = engine_pair_input_keys(file, length, k, draw, draw_length, values, values_length, keys, keys_length);
    if (planted(56) && a.number == 13) { // an owner above 1 taken
        memcpy(owned, file, length);
        for (size_t at = 1; owned[4 * at + 3] == 0x20; at++)
            owned[4 * at + 2] = 0;
        return engine_pair_input_keys(owned, length, k, draw, draw_length, values, values_length, keys, keys_length);
    }
    if (planted(57) && a.number == 15) // 16 before 15
        for (size_t i = 0; i < draw_length; i++)
            if (draw[i] > 250)
                return (lupiknam_answer){16, i};
    if (planted(58) && a.number == 0 && k > 1) // a byte that is not the zero key's plus value times offset, still below its modulus
        keys[keys_length - 1] = keys[keys_length - 1] == 0;
    return a;
}

lupiknam_answer lupiknam_pair_open(FILE_PARAMETERS, uint32_t k, uint32_t round, READ_ONLY(keys), READ_ONLY(rows), WRITTEN(wire_keys),
    WRITTEN(wire_externals)) {
    if (planted(59)) // the round in two bytes
        round &= 65535;
    lupiknam_answer a = engine_pair_open(file, length, k, round, keys, keys_length, rows, rows_length, wire_keys, wire_keys_length,
        wire_externals, wire_externals_length);
    if (planted(60) && a.number == 18) // a bad row named before a bad key
        for (size_t i = 0; i < rows_length; i++)
            if (rows[i] > 250)
                return (lupiknam_answer){18, i};
    if (planted(62) && a.number == 18) // a byte written though the call is refused
        wire_keys[wire_keys_length / 2] = 0;
    if (planted(63) && a.number == 0) // an external value that is not component 0 of its key, still below its modulus
        wire_externals[0] = wire_externals[0] == 0;
    return a;
}

lupiknam_answer lupiknam_pair_decode(FILE_PARAMETERS, READ_ONLY(externals), READ_ONLY(masks), WRITTEN(outputs)) {
    const size_t select = word_of_kind(file, length, 1, 8);
    lupiknam_answer a = engine_pair_decode(file, length, externals, externals_length, masks, masks_length, outputs, outputs_length);
    if (planted(80) && (a.number == 0 || a.number > 10) && select < length / 4) // a selector refused
        return (lupiknam_answer){26, select};
    for (size_t i = 0; planted(69) && a.number == 0 && i < outputs_length; i++) // the names read: party 1 opens
        if (!may_read(file, length, 1, i))
            outputs[i] = 255;
    return a;
}
