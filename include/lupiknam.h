/*
 * lupiknam.h: the engine's calls. For C99 or later, and C++. docs/HOST.md tells the life of a round, docs/FILE.md the circuit file;
 * host/round.c is a whole round to copy, host/pair.c one of the two-party form, host/write.c an editor that writes a file, host/bundles.c a
 * circuit over whole numbers, and host/meter_file.h keeps a meter in a file.
 *
 * A slice is lent as a pointer and a length in bytes, a slice of records (lupiknam_record) as a pointer and the number of records. What a
 * call only reads is `const`. Every number that is handed over by value, every field of a record and every byte may be anything: a call
 * refuses what it cannot take, and always returns.
 *
 * A circuit file is words of 32 bits, lent as bytes, four a word, little-endian.
 *
 * Every call but lupiknam_write, those of bundles and lupiknam_meter_carry reads the circuit first, then makes its checks in the order of
 * their numbers, but for 25, which stands directly after 14, for 26, directly after 10, for 27, in the place of 17, and for 28, directly
 * after 13, and answers with the first that fails. Where a call is refused, each number and each byte lent to it is as it was before; only
 * a refusal by 20 leaves both written buffers all zero.
 *
 * n is the number of parties, 2 to 8; party is one of them, from 0; k is the key length K, 1 to 128. A key on a wire of modulus p is k
 * bytes below p. All parties' keys of a wire lie one after another, parties ascending. The calls of the two-party form, lupiknam_pair_...,
 * take neither n nor party: there are two parties, and only the garbler's keys exist. What they take for a contribution, and how a round of
 * theirs goes, stands before them below.
 *
 * round is the number of a garbling of the circuit, any of the 2^32: it goes into the input of every pad, so that a ring may garble a
 * circuit again, for a second figure, and the two garblings share no pad input. A round's number serves one garbling of a circuit, of either
 * form. Rows open with the round that they were garbled with.
 *
 * An output word names the parties that may read the output, in its bits 17 to 10: bit 10 + s names party s. All of them zero means every
 * party that takes part, and so every party may read an output that names nobody. Only in a ring do names count: the two-party form passes
 * over them, and lupiknam_plain gives every output.
 *
 * account is the paying account that a garbling, of either form, is charged to, 0 to 7. It changes no row and no mask; opening does not
 * take it.
 *
 * A contribution is a party's secret: first its offsets, k bytes each, one for each modulus that some wire has, moduli ascending; then a
 * record for each wire in the order of the wires, by the kind of the wire:
 *
 *   input, project   zero key; mask share
 *   multiply         zero key, first-part key; mask share, first-part share; but of a wire by itself, a square, as a project, and of a
 *                    bit, a wire of modulus 2, by itself nothing: it is a copy, with that wire's keys, mask and external value, and no rows
 *   select           zero key, two first-part keys; mask share, two first-part shares (of the product of bit and difference)
 *   add, scale       nothing
 *
 * with k bytes for a key and one for a share, all below the wire's modulus. It has k * moduli + (k + 1) * record_keys bytes, by the counts
 * that lupiknam_read writes. No offset is zero, that is, each has a byte that is not 0.
 *
 * A round is lupiknam_garble once, from all contributions; then at each party lupiknam_externals for its own inputs, lupiknam_input_keys,
 * lupiknam_open and lupiknam_decode. The caller hands the same circuit, n, k, round and contributions to every call that takes them,
 * takes another round and draws each contribution afresh for each garbling of a circuit, brings the parties' external values and keys
 * together, and hands to each party its own sheet of output masks and no other.
 *
 * The caller's duties, which no call can check:
 *
 *   memory     each pointer leads to as many bytes or records as its length says, all of them set where the call reads them; a pointer
 *              whose length is 0 may be NULL, a pointer to a number (uint32_t *, uint64_t *) or to a meter may not. The memory stays
 *              there until the call returns. Lengths are products: reckon them in size_t
 *   aliasing   what a call writes, a buffer, a number or a meter, overlaps nothing else that is lent to the same call; what it only
 *              reads may overlap
 *   lifetime   no call keeps a pointer after it returns, allocates memory or holds state: there is nothing to open, close or free
 *   threads    calls may run at the same time in any threads, as long as nothing that one of them writes is lent to another that runs
 *              then. Nobody else changes lent memory during a call. One meter serves one garbling at a time, whichever account
 *              each names
 *   stack      work memory is on the caller's stack: about 1.2 MiB in lupiknam_garble, about 300 KiB or less in the others. A thread with
 *              2 MiB of stack can make every call
 *   secrets    a contribution is its party's secret, a draw the garbler's, an input's value its owner's. In a ring an input's mask is its
 *              owner's too, and a sheet of output masks is for its party alone: opening gives every party the external values of all
 *              outputs, so that a party that sees another's sheet reads what that one may read. In the two-party form all masks are the
 *              garbler's, as part of the draw. Clearing memory after use is the caller's business, the stack included
 */
#ifndef LUPIKNAM_H
#define LUPIKNAM_H

#include <stddef.h>
#include <stdint.h>

/* The number of the last change order that changed a declaration in this header. */
#define LUPIKNAM_VERSION 9

#ifdef __cplusplus
extern "C" {
#endif

/*
 * What a call answers: number 0 and place 0 where it is accepted, else the number of the refusal and its place.
 *
 *   number  when                                                              place
 *    1      first word absent, or not 0x10000000                              0
 *    2      unknown kind of word, or a bit that must be zero                  word
 *    3      a kind of word that is not due here                               word
 *    4      modulus not a prime from 2 to 251                                 word
 *    5      wire not lower than the one being made, or (output) not made      word
 *    6      moduli differ, or bit wire not of modulus 2                       word
 *    7      owner above 7, constant 0 or not below the modulus, or image not  word
 *           below the output modulus
 *    8      1,025th wire, or 257th output                                     word
 *    9      no output before the end word                                     word
 *   10      words ran out, or one follows the end word                        its index (ran out: the number of words)
 *   11      number of parties not 2 to 8, or key length not 1 to 128          0
 *   12      party asked for not below the number of parties                   party
 *   13      owner of an input not below the number of parties                 wire, the lowest such
 *   14      a lent length is not exact                                        0
 *   15      value, external value or mask not below its modulus               its index in its buffer, the lowest such
 *   16      byte of a contribution or draw not below its modulus              its index in its buffer, the lowest such
 *   17      an offset is zero                                                 its modulus, the lowest such
 *   18      byte of a key or of a row not below its modulus                   its index in its buffer, the lowest such; of a key
 *                                                                             if any key byte is too large
 *   19      own input key is not zero key plus external value times offset    wire, the lowest such
 *   20      no multiplier fits the key that a gate's rows give                wire, the lowest such
 *   21      total of the named account would pass 4,294,967,295               0
 *   22      a buffer is too short for the words                               0
 *   23      number of primes of a bundle not 2 to 10                          0
 *   24      integer or constant not below the product, or residue not below   0
 *           its prime
 *   25      account above 7                                                   0
 *   26      the circuit has a selector                                        word, that of the first select
 *   27      an offset with component 0 other than 1                           its modulus, the lowest such
 *   28      an output names a party not below the number of parties           output, the lowest such
 *
 * Words are counted from 0, four bytes each; so are records, wires, outputs, parties and the bytes of a buffer. An output is counted among
 * the outputs, in the order of the file: it is neither its word nor its wire.
 *
 * lupiknam_write is lent records, not words. There the place of 2 to 8, and of 14 where the entries of a table run out, is the record's
 * index; the place of 9, and of 14 where entries are left over, is the number of records.
 *
 * The calls of bundles are lent no circuit. There the place of every refusal is 0.
 */
typedef struct lupiknam_answer {
    uint32_t number;
    size_t place;
} lupiknam_answer;

/*
 * The number of an answer in words, as in the table above; "accepted" for 0, "unknown refusal" for a number that no call gives. The string
 * is constant and is not freed.
 */
static inline const char *lupiknam_refusal(uint32_t number)
{
    static const char *const words[] = {
        "accepted",
        "first word absent, or not 0x10000000",
        "unknown kind of word, or a bit that must be zero",
        "a kind of word that is not due here",
        "modulus not a prime from 2 to 251",
        "wire not lower than the one being made, or (output) not made",
        "moduli differ, or bit wire not of modulus 2",
        "owner above 7, constant 0 or not below the modulus, or image not below the output modulus",
        "1,025th wire, or 257th output",
        "no output before the end word",
        "words ran out, or one follows the end word",
        "number of parties not 2 to 8, or key length not 1 to 128",
        "party asked for not below the number of parties",
        "owner of an input not below the number of parties",
        "a lent length is not exact",
        "value, external value or mask not below its modulus",
        "byte of a contribution or draw not below its modulus",
        "an offset is zero",
        "byte of a key or of a row not below its modulus",
        "own input key is not zero key plus external value times offset",
        "no multiplier fits the key that a gate's rows give",
        "total of the named account would pass 4,294,967,295",
        "a buffer is too short for the words",
        "number of primes of a bundle not 2 to 10",
        "integer or constant not below the product, or residue not below its prime",
        "account above 7",
        "the circuit has a selector",
        "an offset with component 0 other than 1",
        "an output names a party not below the number of parties"
    };
    return number < sizeof words / sizeof words[0] ? words[number] : "unknown refusal";
}

/*
 * Reads a circuit.
 *
 *   file, file_length   the circuit file
 *   wires               written: number of wires, at most 1,024
 *   inputs              written: number of inputs; they are the first wires
 *   outputs             written: number of outputs, 1 to 256
 *   rows                written: number of rows that a garbling has; a row is n * K bytes. lupiknam_pair_read counts the two-party form's
 *   moduli              written: number of different moduli among the wires
 *   record_keys         written: number of keys in a party's records; a contribution has K * moduli + (K + 1) * record_keys bytes
 *
 * Refusals: 1 to 10. Where the file is refused none of the six numbers is written.
 *
 * The six pointers lead to six different numbers. A file that this call refuses, every other call that reads it refuses with the same
 * answer; one that it accepts meets none of 1 to 10 in any of them.
 */
lupiknam_answer lupiknam_read(
    const uint8_t *file, size_t file_length,
    uint32_t *wires, uint32_t *inputs, uint32_t *outputs,
    uint32_t *rows, uint32_t *moduli, uint32_t *record_keys);

/*
 * An input, gate or output of a circuit, as an editor lists it; the records of a contribution are something else. A field that the kind
 * does not use is 0.
 *
 *   kind       that of its first word in the file: 2 input, 3 add, 4 scale, 5 multiply, 6 project, 8 select, 10 output
 *   modulus    input, project: the modulus of the wire that it makes
 *   owner      input: the party that owns it
 *   constant   scale: what the wire is multiplied by
 *   bit        select: the bit wire
 *   a          scale, project, output: the wire; add, multiply: the first wire; select: the wire that is taken where the bit is 0
 *   b          add, multiply: the second wire; select: the wire that is taken where the bit is 1
 *   named      output: the parties that may read it, bit s for party s; 0 for every party that takes part
 *
 * Each input and each gate makes a wire; wires are numbered from 0 in the order of the records. The tables of projects stand in a slice of
 * their own: a byte for each entry, all tables one after another in the order of the records. A project of a wire of modulus p has p
 * entries, the images of 0, 1, ... p - 1.
 *
 * A record has 32 bytes, of which the last three, behind `named`, are no field: no call reads them, and what lupiknam_records leaves there
 * is not said. Records are compared field by field, not by memcmp.
 */
typedef struct lupiknam_record {
    uint32_t kind, modulus, owner, constant, bit, a, b;
    uint8_t named;
} lupiknam_record;

/*
 * Writes a circuit file.
 *
 *   records, record_count   the records: inputs, then gates, then outputs
 *   tables, tables_length   the tables of all projects
 *   file, file_length       written: the words, four bytes each, from the buffer's start on; bytes past them are as they were. The words
 *                           are 2 + record_count + tables_length and one more for each select
 *   words                   written: the number of words, head and end word counted
 *
 * Refusals: record by record what the reader would refuse in its words, 2 to 8, and 14 where the entries run out within its table, those
 * that are there being judged first; the first record with a fault decides. Then 9 where no record is an output; 14 where entries are left
 * over; 22 where file_length is below 4 * words. Where the call is refused neither file nor words is written.
 *
 * A kind that no record has, or a field that is not 0 and that the kind does not use, meets 2, before the record's other checks. A field
 * too wide for its bits is judged by its value: modulus 257 meets 4, wire 1,024 meets 5, owner 256 meets 7. An output may name any of the
 * eight parties: how many take part, only the calls of a round know.
 *
 * A file that this call writes, the reader accepts, and lupiknam_records gives the same records and tables back.
 */
lupiknam_answer lupiknam_write(
    const lupiknam_record *records, size_t record_count,
    const uint8_t *tables, size_t tables_length,
    uint8_t *file, size_t file_length,
    uint32_t *words);

/*
 * Gives the records of a circuit file.
 *
 *   file, file_length       the circuit file
 *   records, record_count   written: wires + outputs records, by the counts that lupiknam_read writes: one for each wire, in the order of
 *                           the wires, then one for each output, in the order of the file; a field that the kind does not use is 0
 *   tables, tables_length   written: the tables of all projects: a byte for each word of kind 7 in the file
 *
 * Refusals: 1 to 10; 14 where record_count or tables_length is not as above. Where the call is refused neither slice is written.
 *
 * lupiknam_write makes the same bytes of them again.
 */
lupiknam_answer lupiknam_records(
    const uint8_t *file, size_t file_length,
    lupiknam_record *records, size_t record_count,
    uint8_t *tables, size_t tables_length);

/*
 * Whole numbers over the wires. A bundle of r is r wires in a row, of the first r primes ascending, r from 2 to 10: of 2, 3, 5, 7, 11,
 * 13, 17, 19, 23, 29. It carries an integer by its residues: the wire of prime p has the value integer % p. Integers are below the
 * product of the r primes, 6 for r = 2 and 6,469,693,230 for r = 10; what a circuit reckons with bundles is right modulo that product. The
 * first wires of a bundle are a bundle too, of fewer primes.
 *
 * Splits an integer into its residues: the values of the inputs of a bundle.
 *
 *   r                           number of primes, 2 to 10
 *   integer                     below the product of the first r primes
 *   residues, residues_length   written: r bytes, integer % 2, integer % 3, ..., primes ascending
 *
 * Refusals: 23; 14 where residues_length is not r; 24. Where the call is refused no byte is written.
 */
lupiknam_answer lupiknam_bundle_split(
    uint32_t r, uint64_t integer,
    uint8_t *residues, size_t residues_length);

/*
 * Joins residues to the integer that has them: what a party reads from the decoded outputs of a bundle.
 *
 *   r                           number of primes, 2 to 10
 *   residues, residues_length   r bytes, each below its prime, primes ascending
 *   integer                     written: the one integer below the product that has these residues
 *
 * Refusals: 23; 14 where residues_length is not r; 24. Where the call is refused the integer is not written.
 */
lupiknam_answer lupiknam_bundle_join(
    uint32_t r,
    const uint8_t *residues, size_t residues_length,
    uint64_t *integer);

/*
 * Writes the part of a circuit that adds two bundles. A part is gates alone, one a prime, as words of the circuit file; it makes a bundle,
 * which carries the sum modulo the product. The caller lays it among the gates of a circuit, where wire `first` is the next to be made.
 *
 *   r                   number of primes, 2 to 10
 *   first               the first wire that the part makes
 *   a, b                the first wires of the two bundles, which may be one and the same
 *   file, file_length   written: the words, four bytes each, from the buffer's start on; bytes past them are as they were. There are r words
 *   words               written: the number of words
 *
 * Refusals: 23; 5 where a bundle is not wholly below first, that is, a + r or b + r is above first; 8 where first + r is above 1,024; 22
 * where file_length is below 4 * words. These sums are of whole numbers: none wraps around. Where the call is refused neither file nor
 * words is written.
 *
 * No call that writes a part sees a circuit. In a circuit that has the part behind its last gate, where the bundles that it takes are as
 * described and first is the number of wires before it, the reader accepts the part.
 */
lupiknam_answer lupiknam_bundle_add(
    uint32_t r, uint32_t first, uint32_t a, uint32_t b,
    uint8_t *file, size_t file_length,
    uint32_t *words);

/*
 * Writes the part of a circuit that multiplies two bundles: as lupiknam_bundle_add, with the product for the sum. Where a and b are the
 * same, the gates are squares, and that of prime 2 is a copy.
 */
lupiknam_answer lupiknam_bundle_multiply(
    uint32_t r, uint32_t first, uint32_t a, uint32_t b,
    uint8_t *file, size_t file_length,
    uint32_t *words);

/*
 * Writes the part of a circuit that multiplies a bundle by a constant.
 *
 *   r                   number of primes, 2 to 10
 *   first               the first wire that the part makes
 *   constant            below the product of the first r primes
 *   a                   the first wire of the bundle
 *   file, file_length   written: the words, as of lupiknam_bundle_add: for each prime p a scale by constant % p, or, where that is 0, a
 *                       project to 0, which is 1 + p words. At most 139 words (constant 0, r = 10)
 *   words               written: the number of words
 *
 * Refusals: 23; 24; 5 where a + r is above first; 8; 22. Where the call is refused neither file nor words is written.
 */
lupiknam_answer lupiknam_bundle_scale(
    uint32_t r, uint32_t first, uint64_t constant, uint32_t a,
    uint8_t *file, size_t file_length,
    uint32_t *words);

/*
 * Counts the inputs that a party owns.
 *
 *   file, file_length   the circuit file
 *   n                   number of parties, 2 to 8
 *   party               the party, from 0
 *   count               written: number of inputs whose owner is the party; it may be 0
 *
 * Refusals: 1 to 10; 11 for n; 12; 13; 28.
 */
lupiknam_answer lupiknam_inputs_of(
    const uint8_t *file, size_t file_length,
    uint32_t n, uint32_t party,
    uint32_t *count);

/*
 * Evaluates the plain circuit.
 *
 *   file, file_length         the circuit file
 *   values, values_length     a byte for each input, in the order of the wires, each below its wire's modulus
 *   outputs, outputs_length   written: a byte for each output, in the order of the file
 *
 * Refusals: 1 to 10; 14 where values_length is not the number of inputs or outputs_length not the number of outputs; 15 over values, whose
 * index is the wire's number.
 *
 * The values of all parties stand together here: this call is for tests, and for figures that are not secret.
 */
lupiknam_answer lupiknam_plain(
    const uint8_t *file, size_t file_length,
    const uint8_t *values, size_t values_length,
    uint8_t *outputs, size_t outputs_length);

/*
 * The row meter of a unit: for each account the rows of the accepted garblings, of either form, that named it, and of account 0 also what
 * was carried over from a meter of one total. Any eight numbers may stand in it.
 *
 *   totals   of accounts 0 to 7, in this order, each at most 4,294,967,295
 *
 * The caller makes it by lupiknam_meter_carry, once in the life of a unit, hands it from each garbling to the next, keeps it in between
 * (docs/HOST.md, "The meter"), and changes it nowhere else.
 */
typedef struct lupiknam_meter {
    uint32_t totals[8];
} lupiknam_meter;

/*
 * Makes a meter, of the one total that a unit in the field has kept so far, or for a new unit.
 *
 *   total   the old total, any number; 0 for a new unit
 *   meter   written: the old total for account 0, and 0 for each of the others, whatever stood there
 *
 * Nothing is refused, and nothing is returned. The caller carries a total over once: a second time would wipe what seven accounts have
 * garbled since, and set account 0 back.
 */
void lupiknam_meter_carry(
    uint32_t total,
    lupiknam_meter *meter);

/*
 * Garbles a circuit.
 *
 *   file, file_length                     the circuit file
 *   n, k, round                           number of parties, key length, the round
 *   account                               the account that the rows are charged to, 0 to 7
 *   contributions, contributions_length   n * (k * moduli + (k + 1) * record_keys) bytes: all parties' contributions, one after another,
 *                                         parties ascending
 *   rows, rows_length                     written: rows * n * k bytes, by the count of rows that lupiknam_read writes; by gate, component
 *                                         and row, then a key's length for each receiving party
 *   input_masks, input_masks_length       written: a byte for each input, in the order of the wires
 *   output_masks, output_masks_length     written: n * outputs bytes: a sheet for each party, parties ascending. A sheet has a byte for each
 *                                         output, in the order of the file: its mask, or 255, which is no mask, where this party may not
 *                                         read it
 *   meter                                 read and written: the circuit's rows are added to the total of the named account; the seven
 *                                         others are as they were
 *
 * Refusals, in this order: 1 to 10; 11; 13; 28; 14 where a length is not as above; 25; 16, whose place counts through all contributions;
 * 17, whose place is the lowest modulus over all parties; 21 where the named account's total and the circuit's rows together pass its limit,
 * whatever the others hold. Where the call is refused all eight totals are as they were.
 *
 * Which account a garbling is for, the caller knows: this call only sees that there is such a one. Each contribution serves one garbling,
 * and so does a round's number for one circuit, whichever form. An input's mask is for its owner alone, and a sheet for its party alone:
 * the sheet of party s starts at s * outputs. Whoever garbles sees all contributions and all sheets, and can read every output.
 *
 * A sheet depends on nothing but the masks that its party may read: two accepted garblings of one circuit, in which every output that the
 * party may read has equal masks, give it the same sheet.
 */
lupiknam_answer lupiknam_garble(
    const uint8_t *file, size_t file_length,
    uint32_t n, uint32_t k, uint32_t round, uint32_t account,
    const uint8_t *contributions, size_t contributions_length,
    uint8_t *rows, size_t rows_length,
    uint8_t *input_masks, size_t input_masks_length,
    uint8_t *output_masks, size_t output_masks_length,
    lupiknam_meter *meter);

/*
 * Gives the external values of the inputs that a party owns, (value + mask) modulo the wire's modulus.
 *
 *   file, file_length             the circuit file
 *   n, party                      number of parties, the party
 *   values, values_length         a byte for each input that the party owns, in the order of the wires
 *   masks, masks_length           the masks that garbling wrote for these inputs, in the same order
 *   externals, externals_length   written: a byte for each of these inputs
 *
 * Refusals: 1 to 10; 11 for n; 12; 13; 28; 14 where a length is not the number that lupiknam_inputs_of gives; 15 over values and masks,
 * the lowest index over both: an index among the party's own inputs, not a wire.
 *
 * A party that owns no input lends three buffers of length 0.
 */
lupiknam_answer lupiknam_externals(
    const uint8_t *file, size_t file_length,
    uint32_t n, uint32_t party,
    const uint8_t *values, size_t values_length,
    const uint8_t *masks, size_t masks_length,
    uint8_t *externals, size_t externals_length);

/*
 * Gives a party's keys on all inputs, zero key + external value times offset.
 *
 *   file, file_length                   the circuit file
 *   n, k, party                         number of parties, key length, the party
 *   contribution, contribution_length   k * moduli + (k + 1) * record_keys bytes: the party's contribution
 *   externals, externals_length         a byte for each input: the external values of all inputs, in the order of the wires
 *   keys, keys_length                   written: inputs * k bytes, a key for each input, in the order of the wires
 *
 * Refusals: 1 to 10; 11; 12; 13; 28; 14 where a length is not as above; 15 over externals; 16, whose place counts from the contribution's
 * start; 17.
 *
 * The caller asks for the keys of one list of external values alone: keys of two external values on a wire give away the offset.
 */
lupiknam_answer lupiknam_input_keys(
    const uint8_t *file, size_t file_length,
    uint32_t n, uint32_t k, uint32_t party,
    const uint8_t *contribution, size_t contribution_length,
    const uint8_t *externals, size_t externals_length,
    uint8_t *keys, size_t keys_length);

/*
 * Opens a garbled circuit at a party: every party's key, and the external value, of every wire.
 *
 *   file, file_length                       the circuit file
 *   n, k, party, round                      number of parties, key length, the party that opens, the round that garbling was given
 *   contribution, contribution_length       k * moduli + (k + 1) * record_keys bytes: that party's contribution
 *   externals, externals_length             a byte for each input: the external values of all inputs, in the order of the wires
 *   keys, keys_length                       inputs * n * k bytes: the input keys by input, then by party, so that party j's key on wire w
 *                                           starts at (w * n + j) * k
 *   rows, rows_length                       rows * n * k bytes: the rows that garbling wrote
 *   wire_keys, wire_keys_length             written: wires * n * k bytes, the keys by wire, then by party
 *   wire_externals, wire_externals_length   written: a byte for each wire
 *
 * Refusals: 1 to 10; 11; 12; 13; 28; 14 where a length is not as above; 15 over externals; 16, whose place counts from the contribution's
 * start; 17; 18 over keys, then rows; 19 over the keys of the party that opens, on all inputs; 20. After 20 wire_keys and wire_externals
 * are all zero.
 *
 * 18, 19 or 20 says that keys, rows, external values or the contribution are not those of one round; 20 may also come of another round's
 * number than garbling was given. Not every such change meets a refusal: only with garbling's number are acceptance, keys and external
 * values sure.
 */
lupiknam_answer lupiknam_open(
    const uint8_t *file, size_t file_length,
    uint32_t n, uint32_t k, uint32_t party, uint32_t round,
    const uint8_t *contribution, size_t contribution_length,
    const uint8_t *externals, size_t externals_length,
    const uint8_t *keys, size_t keys_length,
    const uint8_t *rows, size_t rows_length,
    uint8_t *wire_keys, size_t wire_keys_length,
    uint8_t *wire_externals, size_t wire_externals_length);

/*
 * Decodes the outputs that a party may read, (external value - mask) modulo the wire's modulus.
 *
 *   file, file_length             the circuit file
 *   n, party                      number of parties, the party
 *   externals, externals_length   a byte for each wire: the external values of all wires, as lupiknam_open wrote them
 *   masks, masks_length           a byte for each output: the party's own sheet of the output masks that garbling wrote
 *   outputs, outputs_length       written: a byte for each output, in the order of the file; 255, which is no figure, where the party may
 *                                 not read it
 *
 * Refusals: 1 to 10; 11 for n; 12; 13; 28; 14 where a length is not as above; 15 over external values and masks, the lowest index over both.
 * The mask of an output that the party may not read is passed over, whatever byte it is; external values are those of all wires.
 */
lupiknam_answer lupiknam_decode(
    const uint8_t *file, size_t file_length,
    uint32_t n, uint32_t party,
    const uint8_t *externals, size_t externals_length,
    const uint8_t *masks, size_t masks_length,
    uint8_t *outputs, size_t outputs_length);

/*
 * The two-party form, for a circuit without selectors whose inputs are of parties 0 and 1. One of the two, whichever they agree on, is the
 * garbler: it draws, garbles and makes the input keys. The other is the opener. A row is one key, k bytes, half of what it is in a ring of
 * two. The rows are
 *
 *   project    p - 1, where p is the modulus of the wire that it names
 *   multiply   2 * p - 2, where p is its modulus; of a wire by itself too, which in a ring has p, or none where it is a bit
 *   others     none
 *
 * Only the garbler's keys exist. The key for value v is the wire's zero key plus v times the offset of the wire's modulus. Component 0 of a
 * key is its byte 0: that of a zero key is the wire's mask, that of each offset is 1, and so that of any key is the external value, (value +
 * mask) modulo the wire's modulus. An offset of modulus p is therefore one of p^(k - 1), and the smallest modulus decides how large k is to
 * be (docs/HOST.md, "Drawing for two").
 *
 * A draw is the garbler's secret. It takes the place of contributions: first the offsets, k bytes each, one for each modulus that some wire
 * has, moduli ascending, byte 0 of each being 1; then the zero keys of the inputs, k bytes each, in the order of the wires. All bytes are
 * below their modulus. It has k * (moduli + inputs) bytes, by the counts that lupiknam_read writes. A gate has nothing drawn.
 *
 * A round is, at the garbler, lupiknam_pair_garble and lupiknam_pair_input_keys from one draw, and at the opener lupiknam_pair_open, which
 * gets the rows and one key for each input; then lupiknam_pair_decode where the output masks are. The caller hands the same circuit, k and
 * round to every call that takes them, and draws afresh and takes another round for each garbling of a circuit, of either form. Rows and
 * keys of the two forms are not mixed: neither form opens the other's.
 *
 * The parties that outputs name are passed over here: there is one mask for each output, none is 255, and no call gives 28. Who reads is a
 * matter of who gets the masks.
 *
 * The garbler knows all masks, so that an external value, or a key, tells it the value of that wire. Where it is to decode, the opener hands
 * it the external values of the outputs alone, which the two have agreed on, with 0 for all other wires: never those of other wires, and
 * never a key.
 *
 * Reads a circuit for the two-party form.
 *
 *   file, file_length   the circuit file
 *   rows                written: number of rows that a garbling of the two-party form has; a row is K bytes
 *
 * Refusals: 1 to 10; 26, whose place is the word, of kind 8, of the first select. Where the file is refused the number is not written.
 *
 * The other counts are those of lupiknam_read. No owner is looked at here; 13 is for garbling, input keys and opening.
 */
lupiknam_answer lupiknam_pair_read(
    const uint8_t *file, size_t file_length,
    uint32_t *rows);

/*
 * Garbles a circuit in the two-party form, at the garbler.
 *
 *   file, file_length                   the circuit file
 *   k, round                            key length, the round
 *   account                             the account that the rows are charged to, 0 to 7
 *   draw, draw_length                   k * (moduli + inputs) bytes: the draw
 *   rows, rows_length                   written: rows * k bytes, by the count that lupiknam_pair_read writes; by gate, component and row
 *   output_masks, output_masks_length   written: a byte for each output, in the order of the file
 *   meter                               read and written: the rows of this form are added to the total of the named account; the seven
 *                                       others are as they were
 *
 * Refusals, in this order: 1 to 10; 26; 11 for k; 13 where an owner is above 1; 14 where a length is not as above; 25; 16, whose place
 * counts from the draw's start; 27; 21 where the named account's total and the rows together pass its limit, whatever the others hold.
 * Where the call is refused all eight totals are as they were.
 *
 * A draw serves one garbling, and so does a round's number for one circuit, whichever form. Rows go to the opener. The output masks go to
 * whoever may read the figures, and to nobody else: whoever opens and has them decodes.
 */
lupiknam_answer lupiknam_pair_garble(
    const uint8_t *file, size_t file_length,
    uint32_t k, uint32_t round, uint32_t account,
    const uint8_t *draw, size_t draw_length,
    uint8_t *rows, size_t rows_length,
    uint8_t *output_masks, size_t output_masks_length,
    lupiknam_meter *meter);

/*
 * Gives the input keys of the two-party form, zero key + value times offset, at the garbler.
 *
 *   file, file_length       the circuit file
 *   k                       key length
 *   draw, draw_length       k * (moduli + inputs) bytes: the draw that was garbled
 *   values, values_length   a byte for each input, in the order of the wires: the values of all inputs, both parties'
 *   keys, keys_length       written: inputs * k bytes, a key for each input, in the order of the wires
 *
 * Refusals, in this order: 1 to 10; 26; 11 for k; 13 where an owner is above 1; 14 where a length is not as above; 15 over values, whose
 * index is the wire's number; 16, whose place counts from the draw's start; 27.
 *
 * This call takes all values at once, the opener's too. How the opener comes by the keys of its own inputs without the garbler learning
 * their values, oblivious transfer, lies outside the engine, as networks do. Nobody but the garbler may have two keys of a wire: the key for
 * 1 less the key for 0 is the offset, and the offset makes of one key of a wire of that modulus all the others, and so opens all its rows.
 */
lupiknam_answer lupiknam_pair_input_keys(
    const uint8_t *file, size_t file_length,
    uint32_t k,
    const uint8_t *draw, size_t draw_length,
    const uint8_t *values, size_t values_length,
    uint8_t *keys, size_t keys_length);

/*
 * Opens a circuit garbled in the two-party form, at the opener: the key and the external value of every wire.
 *
 *   file, file_length                       the circuit file
 *   k, round                                key length, the round that garbling was given
 *   keys, keys_length                       inputs * k bytes: a key for each input, in the order of the wires
 *   rows, rows_length                       rows * k bytes, by the count that lupiknam_pair_read writes: the rows that garbling wrote
 *   wire_keys, wire_keys_length             written: wires * k bytes, a key for each wire
 *   wire_externals, wire_externals_length   written: a byte for each wire, byte 0 of its key; lupiknam_pair_decode takes them
 *
 * Refusals, in this order: 1 to 10; 26; 11 for k; 13 where an owner is above 1; 14 where a length is not as above; 18 over keys, then rows.
 *
 * Nothing more can be refused, since the opener has no key to compare with: keys, rows or a round's number that are not those of one round
 * open as well, mostly to other keys and external values; lupiknam_pair_decode then accepts them and gives wrong figures: the host must
 * guard the bytes itself. Only with garbling's bytes and number are keys and external values sure.
 *
 * Of what this call writes, the garbler gets the external values of the outputs, if it is to decode, and nothing else (above).
 */
lupiknam_answer lupiknam_pair_open(
    const uint8_t *file, size_t file_length,
    uint32_t k, uint32_t round,
    const uint8_t *keys, size_t keys_length,
    const uint8_t *rows, size_t rows_length,
    uint8_t *wire_keys, size_t wire_keys_length,
    uint8_t *wire_externals, size_t wire_externals_length);

/*
 * Decodes the outputs of the two-party form, (external value - mask) modulo the wire's modulus, where the output masks are.
 *
 *   file, file_length             the circuit file
 *   externals, externals_length   a byte for each wire: the external values of all wires, as lupiknam_pair_open wrote them
 *   masks, masks_length           a byte for each output: the output masks that garbling wrote
 *   outputs, outputs_length       written: a byte for each output, in the order of the file
 *
 * Refusals: 1 to 10; 14 where a length is not as above; 15 over external values and masks, the lowest index over both. Neither 13 nor 26 is
 * for this call: it looks at no owner and takes a circuit with selectors too.
 */
lupiknam_answer lupiknam_pair_decode(
    const uint8_t *file, size_t file_length,
    const uint8_t *externals, size_t externals_length,
    const uint8_t *masks, size_t masks_length,
    uint8_t *outputs, size_t outputs_length);

#ifdef __cplusplus
}
#endif

#endif
