// The header from C++: it may be included twice, its names are those of the archive, and its types are as C has them. The calls here are
// those at the edge of what may be lent: no file, and buffers of length 0 that are NULL. What they must answer follows from documents 01 and 02.
#include "lupiknam.h"
#include "lupiknam.h"
#include <cstddef>
#include <cstdio>
#include <cstring>

// seven numbers without a gap, in the order of the header, then a byte and three that are no field: an editor in another language lays them
// out itself
static_assert(sizeof(lupiknam_record) == 32 && alignof(lupiknam_record) == 4, "layout of a record");
static_assert(offsetof(lupiknam_record, kind) == 0 && offsetof(lupiknam_record, modulus) == 4 && offsetof(lupiknam_record, owner) == 8
        && offsetof(lupiknam_record, constant) == 12 && offsetof(lupiknam_record, bit) == 16 && offsetof(lupiknam_record, a) == 20
        && offsetof(lupiknam_record, b) == 24 && offsetof(lupiknam_record, named) == 28,
    "fields of a record");
static_assert(sizeof(lupiknam_record().named) == 1, "the parties that an output names are a byte");
// eight numbers without a gap
static_assert(sizeof(lupiknam_meter) == 32 && alignof(lupiknam_meter) == 4 && offsetof(lupiknam_meter, totals) == 0, "layout of a meter");
static_assert(LUPIKNAM_VERSION == 9, "version of the header");

static int failed = 0;

static void check(const char *what, bool holds)
{
    if (!holds) {
        std::printf("failed: %s\n", what);
        failed = 1;
    }
}

static bool answers(lupiknam_answer answer, uint32_t number, size_t place)
{
    return answer.number == number && answer.place == place;
}

static bool same(const lupiknam_record &x, const lupiknam_record &y)
{
    return x.kind == y.kind && x.modulus == y.modulus && x.owner == y.owner && x.constant == y.constant && x.bit == y.bit && x.a == y.a
        && x.b == y.b && x.named == y.named;
}

int main()
{
    // two inputs of modulus 5, of parties 0 and 1, and their product: 10 rows; 2 records of one key and one of two
    static const uint8_t product[] = {0, 0, 0, 0x10, 5, 0, 0, 0x20, 5, 0, 1, 0x20, 1, 0, 0, 0x50, 2, 0, 0, 0xA0, 0, 0, 0, 0xB0};
    uint32_t wires = 77, inputs = 77, outputs = 77, rows = 77, moduli = 77, records = 77, count = 77;

    check("no file", answers(lupiknam_read(NULL, 0, &wires, &inputs, &outputs, &rows, &moduli, &records), 1, 0));
    check("no file: numbers untouched",
        wires == 77 && inputs == 77 && outputs == 77 && rows == 77 && moduli == 77 && records == 77);
    check("product", answers(lupiknam_read(product, sizeof product, &wires, &inputs, &outputs, &rows, &moduli, &records), 0, 0));
    check("product: counts", wires == 3 && inputs == 2 && outputs == 1 && rows == 10 && moduli == 1 && records == 4);

    // the same file as records: two inputs, the product, the output
    static const lupiknam_record list[] = {
        {2, 5, 0, 0, 0, 0, 0, 0}, {2, 5, 1, 0, 0, 0, 0, 0}, {5, 0, 0, 0, 0, 0, 1, 0}, {10, 0, 0, 0, 0, 2, 0, 0}};
    uint8_t written[sizeof product];
    lupiknam_record back[4];
    uint32_t words = 77;
    check("no records", answers(lupiknam_write(NULL, 0, NULL, 0, NULL, 0, &words), 9, 0) && words == 77);
    check("records, and no buffer", answers(lupiknam_write(list, 4, NULL, 0, NULL, 0, &words), 22, 0) && words == 77);
    check("writing", answers(lupiknam_write(list, 4, NULL, 0, written, sizeof written, &words), 0, 0) && words == 6);
    check("writing: bytes", std::memcmp(written, product, sizeof product) == 0);
    check("records of no file", answers(lupiknam_records(NULL, 0, NULL, 0, NULL, 0), 1, 0));
    check("records, and no space for them", answers(lupiknam_records(product, sizeof product, NULL, 0, NULL, 0), 14, 0));
    check("records", answers(lupiknam_records(product, sizeof product, back, 4, NULL, 0), 0, 0));
    check("records: the same", same(back[0], list[0]) && same(back[1], list[1]) && same(back[2], list[2]) && same(back[3], list[3]));

    // the same output for parties 0 and 2 alone, bits 10 and 12 of its word
    static const lupiknam_record named_output = {10, 0, 0, 0, 0, 2, 0, 5};
    lupiknam_record named_list[4] = {list[0], list[1], list[2], named_output};
    uint8_t named[sizeof product];
    check("writing names", answers(lupiknam_write(named_list, 4, NULL, 0, named, sizeof named, &words), 0, 0) && words == 6);
    check("writing names: bytes",
        std::memcmp(named, product, 17) == 0 && named[17] == 5 << 2 && std::memcmp(named + 18, product + 18, 6) == 0);
    check("records with names", answers(lupiknam_records(named, sizeof named, back, 4, NULL, 0), 0, 0) && same(back[3], named_output));
    named_list[2].named = 1;
    check("names in a product", answers(lupiknam_write(named_list, 4, NULL, 0, named, sizeof named, &words), 2, 2));

    // the product's second wire is its own: word 3
    uint8_t own[sizeof product];
    std::memcpy(own, product, sizeof own);
    own[12] = 2;
    check("own wire", answers(lupiknam_read(own, sizeof own, &wires, &inputs, &outputs, &rows, &moduli, &records), 5, 3));

    check("inputs of party 1", answers(lupiknam_inputs_of(product, sizeof product, 3, 1, &count), 0, 0) && count == 1);
    check("inputs of party 2", answers(lupiknam_inputs_of(product, sizeof product, 3, 2, &count), 0, 0) && count == 0);
    check("party 3 of 3", answers(lupiknam_inputs_of(product, sizeof product, 3, 3, &count), 12, 3));
    check("external values of no inputs", answers(lupiknam_externals(product, sizeof product, 3, 2, NULL, 0, NULL, 0, NULL, 0), 0, 0));
    check("external values of one", answers(lupiknam_externals(product, sizeof product, 3, 1, NULL, 0, NULL, 0, NULL, 0), 14, 0));
    check("a reader that is absent", answers(lupiknam_inputs_of(named, sizeof named, 2, 1, &count), 28, 0) && count == 0);
    check("readers that are there", answers(lupiknam_inputs_of(named, sizeof named, 3, 0, &count), 0, 0) && count == 1);

    // bundles: 23 has the residues 1, 2 modulo 2 and 3, and 3, 2 modulo 5 and 7; a part of two wires behind two bundles of two
    static const uint8_t sum[] = {2, 0, 0, 0x30, 3, 4, 0, 0x30}, squares[] = {2, 8, 0, 0x50, 3, 12, 0, 0x50};
    static const uint8_t scaled[] = {0, 8, 0, 0x60, 0, 0, 0, 0x70, 0, 0, 0, 0x70, 1, 8, 0, 0x40};
    uint8_t residues[4] = {77, 77, 77, 77}, part[sizeof scaled];
    uint64_t integer = UINT64_MAX;
    check("no residues", answers(lupiknam_bundle_split(4, 23, NULL, 0), 14, 0));
    check("bundle of 11", answers(lupiknam_bundle_split(11, 23, NULL, 0), 23, 0));
    check("210 of 4 primes", answers(lupiknam_bundle_split(4, 210, residues, 4), 24, 0) && residues[0] == 77);
    check("splitting", answers(lupiknam_bundle_split(4, 23, residues, 4), 0, 0));
    check("splitting: residues", residues[0] == 1 && residues[1] == 2 && residues[2] == 3 && residues[3] == 2);
    check("joining nothing", answers(lupiknam_bundle_join(4, NULL, 0, &integer), 14, 0) && integer == UINT64_MAX);
    check("joining", answers(lupiknam_bundle_join(4, residues, 4, &integer), 0, 0) && integer == 23);
    words = 77;
    check("a part, and no buffer", answers(lupiknam_bundle_add(2, 4, 0, 2, NULL, 0, &words), 22, 0) && words == 77);
    check("adding", answers(lupiknam_bundle_add(2, 4, 0, 2, part, sizeof part, &words), 0, 0) && words == 2);
    check("adding: bytes", std::memcmp(part, sum, sizeof sum) == 0);
    check("multiplying", answers(lupiknam_bundle_multiply(2, 4, 2, 2, part, sizeof part, &words), 0, 0) && words == 2);
    check("multiplying: bytes", std::memcmp(part, squares, sizeof squares) == 0);
    check("scaling by 6", answers(lupiknam_bundle_scale(2, 4, 6, 0, part, sizeof part, &words), 24, 0) && words == 2);
    check("scaling by 2", answers(lupiknam_bundle_scale(2, 4, 2, 0, part, sizeof part, &words), 0, 0) && words == 4);
    check("scaling: bytes", std::memcmp(part, scaled, sizeof scaled) == 0);

    // the old total is account 0's, and the others start at 0
    static const uint32_t carried[8] = {77, 0, 0, 0, 0, 0, 0, 0};
    lupiknam_meter meter;
    std::memset(&meter, 0x55, sizeof meter);
    lupiknam_meter_carry(77, &meter);
    check("carrying", std::memcmp(meter.totals, carried, sizeof carried) == 0);

    // lengths of 0 where more is due
    const uint8_t four[] = {4, 5};
    uint8_t result[1] = {77};
    check("plain, no output", answers(lupiknam_plain(product, sizeof product, four, 2, NULL, 0), 14, 0));
    check("plain, value 5 of modulus 5", answers(lupiknam_plain(product, sizeof product, four, 2, result, 1), 15, 1) && result[0] == 77);
    check("garbling of nothing",
        answers(lupiknam_garble(product, sizeof product, 3, 16, 0, 0, NULL, 0, NULL, 0, NULL, 0, NULL, 0, &meter), 14, 0));
    check("garbling of nothing, account 8",
        answers(lupiknam_garble(product, sizeof product, 3, 16, 0, 8, NULL, 0, NULL, 0, NULL, 0, NULL, 0, &meter), 14, 0));
    check("garbling of nothing: totals untouched", std::memcmp(meter.totals, carried, sizeof carried) == 0);
    check("input keys of nothing", answers(lupiknam_input_keys(product, sizeof product, 3, 16, 0, NULL, 0, NULL, 0, NULL, 0), 14, 0));
    check("opening of nothing",
        answers(lupiknam_open(product, sizeof product, 3, 16, 0, 0, NULL, 0, NULL, 0, NULL, 0, NULL, 0, NULL, 0, NULL, 0), 14, 0));
    check("decoding of nothing", answers(lupiknam_decode(product, sizeof product, 3, 0, NULL, 0, NULL, 0, NULL, 0), 14, 0));
    check("decoding of nothing, party 3 of 3", answers(lupiknam_decode(product, sizeof product, 3, 3, NULL, 0, NULL, 0, NULL, 0), 12, 3));
    check("decoding of nothing, a reader absent", answers(lupiknam_decode(named, sizeof named, 2, 0, NULL, 0, NULL, 0, NULL, 0), 28, 0));

    // external values 1, 2 and 4: party 1 reads nothing, whatever its sheet has; party 2, by a mask of 3, reads 1
    const uint8_t one_two_four[] = {1, 2, 4}, three[] = {3}, no_mask[] = {255};
    check("decoding what may not be read",
        answers(lupiknam_decode(named, sizeof named, 3, 1, one_two_four, 3, no_mask, 1, result, 1), 0, 0) && result[0] == 255);
    check("decoding what may be read",
        answers(lupiknam_decode(named, sizeof named, 3, 2, one_two_four, 3, three, 1, result, 1), 0, 0) && result[0] == 1);
    check("decoding without a mask",
        answers(lupiknam_decode(named, sizeof named, 3, 2, one_two_four, 3, no_mask, 1, result, 1), 15, 0) && result[0] == 1);

    // the two-party form: 8 rows of the product; a draw has an offset and two zero keys. Of a bit's selector: word 2
    static const uint8_t choice[] = {0, 0, 0, 0x10, 2, 0, 0, 0x20, 0, 0, 0, 0x80, 0, 0, 0, 0x90, 1, 0, 0, 0xA0, 0, 0, 0, 0xB0};
    static const uint8_t drawn[] = {1, 3, 2, 0, 4, 4}, zeros[] = {0, 3, 2, 0, 4, 4};
    uint8_t pair_rows[16], pair_keys[4], opened[6], externals[3], mask[1];
    uint32_t pair_count = 77;
    check("no file for two", answers(lupiknam_pair_read(NULL, 0, &pair_count), 1, 0) && pair_count == 77);
    check("a selector for two", answers(lupiknam_pair_read(choice, sizeof choice, &pair_count), 26, 2) && pair_count == 77);
    check("a product for two", answers(lupiknam_pair_read(product, sizeof product, &pair_count), 0, 0) && pair_count == 8);
    check("garbling of nothing for two",
        answers(lupiknam_pair_garble(product, sizeof product, 2, 0, 0, NULL, 0, NULL, 0, NULL, 0, &meter), 14, 0));
    check("garbling for two, an offset that begins with 0",
        answers(lupiknam_pair_garble(product, sizeof product, 2, 0, 0, zeros, 6, pair_rows, 16, mask, 1, &meter), 27, 5));
    check("refused garblings for two: totals untouched", std::memcmp(meter.totals, carried, sizeof carried) == 0);
    check("garbling for two",
        answers(lupiknam_pair_garble(product, sizeof product, 2, 0, 1, drawn, 6, pair_rows, 16, mask, 1, &meter), 0, 0)
            && meter.totals[0] == 77 && meter.totals[1] == 8);
    check("input keys of nothing for two", answers(lupiknam_pair_input_keys(product, sizeof product, 2, NULL, 0, NULL, 0, NULL, 0), 14, 0));
    // values 4 and 4, an offset of 1 and 3: 2 + 4 and 0 + 12, 4 + 4 and 4 + 12, modulo 5
    const uint8_t fours[] = {4, 4};
    check("input keys for two", answers(lupiknam_pair_input_keys(product, sizeof product, 2, drawn, 6, fours, 2, pair_keys, 4), 0, 0));
    check("input keys for two: bytes", pair_keys[0] == 1 && pair_keys[1] == 2 && pair_keys[2] == 3 && pair_keys[3] == 1);
    check("opening of nothing for two",
        answers(lupiknam_pair_open(product, sizeof product, 2, 0, NULL, 0, NULL, 0, NULL, 0, NULL, 0), 14, 0));
    check("opening for two",
        answers(lupiknam_pair_open(product, sizeof product, 2, 0, pair_keys, 4, pair_rows, 16, opened, 6, externals, 3), 0, 0));
    check("opening for two: external values", externals[0] == 1 && externals[1] == 3 && externals[2] == opened[4]);
    check("decoding of nothing for two", answers(lupiknam_pair_decode(product, sizeof product, NULL, 0, NULL, 0, NULL, 0), 14, 0));
    check("decoding for two",
        answers(lupiknam_pair_decode(product, sizeof product, externals, 3, mask, 1, result, 1), 0, 0) && result[0] == 1);
    result[0] = 77;
    check("decoding for two, names passed over",
        answers(lupiknam_pair_decode(named, sizeof named, externals, 3, mask, 1, result, 1), 0, 0) && result[0] == 1);

    check("refusal in words", std::strcmp(lupiknam_refusal(17), "an offset is zero") == 0);
    check("the last refusal in words",
        std::strcmp(lupiknam_refusal(28), "an output names a party not below the number of parties") == 0);
    return failed;
}
