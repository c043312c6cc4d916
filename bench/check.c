// Checks a code file as `lif check` does, and says the same line where the code is accepted: for each pattern it makes the
// vectors of all links, and for each sink the product of its decoder with the vectors of the decoder's links, which has to
// be the identity. Products of elements are made by tables of logarithms: of a vector the logarithms are kept, and that of
// an entry of a decoder is looked up once for a row. The logarithm of zero stands where the table of powers has zeros.
//
// What is read is taken as it stands, as far as whole_code.h goes.
#include "whole_code.h"

// The fields of octets of 0x11D and of 0x11B, and over the first one that of pairs in which y * y = y + 0x20.
enum { POLYNOMIAL = 0x11D, OTHER_POLYNOMIAL = 0x11B, CONSTANT = 0x20, MOST_ELEMENTS = 65536 };

struct field {
    unsigned order;
    uint32_t logs[MOST_ELEMENTS];
    uint16_t powers[4 * MOST_ELEMENTS];
};

static unsigned octet_product(unsigned polynomial, unsigned a, unsigned b) {
    unsigned product = 0;
    for (; b != 0; b >>= 1) {
        if (b & 1) product ^= a;
        a <<= 1;
        if (a & 0x100) a ^= polynomial;
    }
    return product;
}

static unsigned pair_product(unsigned a, unsigned b) {
    unsigned high = octet_product(POLYNOMIAL, a >> 8, b >> 8);
    unsigned low = octet_product(POLYNOMIAL, a & 255, b & 255);
    unsigned both = octet_product(POLYNOMIAL, (a >> 8) ^ (a & 255), (b >> 8) ^ (b & 255));
    return (both ^ low) << 8 | (low ^ octet_product(POLYNOMIAL, CONSTANT, high));
}

static unsigned product(unsigned kind, unsigned a, unsigned b) {
    return kind == 16 ? pair_product(a, b) : octet_product(kind == 9 ? OTHER_POLYNOMIAL : POLYNOMIAL, a, b);
}

// Fills the tables by the powers of an element, and says whether these are all elements but zero.
static bool fill(struct field *field, unsigned kind, unsigned generator) {
    unsigned power = 1;
    for (unsigned exponent = 0; exponent < field->order; exponent++) {
        if (exponent > 0 && power == 1) return false;
        field->logs[power] = exponent;
        field->powers[exponent] = (uint16_t)power;
        field->powers[exponent + field->order] = (uint16_t)power;
        power = product(kind, power, generator);
    }
    return power == 1;
}

static struct field *new_field(unsigned kind) {
    struct field *field = room(1, sizeof *field);
    field->order = (kind == 16 ? MOST_ELEMENTS : 256) - 1;
    unsigned generator = 2;
    while (!fill(field, kind, generator)) generator++;
    field->logs[0] = 2 * field->order;
    return field;
}

// Makes the logarithms of a link's vector of those of its operands.
static void make_vector(const struct file *file, const struct field *field, uint32_t *vectors, unsigned link) {
    const struct code *code = &file->code;
    uint16_t sum[MOST_RATE] = {0};
    for (unsigned place = 0; place < file->operands[link].count; place++) {
        struct operand operand = file->operands[link].at[place];
        if (code->links[link].tail == code->source) {
            sum[operand.from] ^= (uint16_t)operand.times;
            continue;
        }
        const uint32_t *from = vectors + (size_t)operand.from * code->rate;
        const uint16_t *powers = field->powers + field->logs[operand.times];
        for (unsigned column = 0; column < code->rate; column++) sum[column] ^= powers[from[column]];
    }
    uint32_t *into = vectors + (size_t)link * code->rate;
    for (unsigned column = 0; column < code->rate; column++) into[column] = field->logs[sum[column]];
}

static void make_vectors(const struct file *file, const struct field *field, uint32_t *vectors, unsigned pattern) {
    const struct code *code = &file->code;
    fail_links(file, pattern);
    for (unsigned link = 0; link < code->link_count; link++) {
        if (!code->links[link].has_failed) {
            make_vector(file, field, vectors, link);
            continue;
        }
        for (unsigned column = 0; column < code->rate; column++) {
            vectors[(size_t)link * code->rate + column] = field->logs[0];
        }
    }
}

// Whether a row of a decoder gives back a row of the source.
static bool gives_back(const struct file *file, const struct field *field, const uint32_t *vectors, const uint8_t *links,
                       const uint8_t *entries, unsigned row) {
    unsigned rate = file->code.rate;
    unsigned width = width_of(&file->code);
    uint16_t sum[MOST_RATE] = {0};
    for (unsigned place = 0; place < rate; place++) {
        struct bytes link = {(uint8_t *)links + 2 * place, 2};
        struct bytes entry = {(uint8_t *)entries + ((size_t)row * rate + place) * width, width};
        const uint32_t *from = vectors + (size_t)take_below(&link, 2, file->code.link_count) * rate;
        unsigned times = take(&entry, width);
        if (times == 0) continue;
        const uint16_t *powers = field->powers + field->logs[times];
        for (unsigned column = 0; column < rate; column++) sum[column] ^= powers[from[column]];
    }
    for (unsigned column = 0; column < rate; column++) {
        if (sum[column] != (column == row)) return false;
    }
    return true;
}

static bool decodes(const struct file *file, const struct field *field, const uint32_t *vectors, size_t demand) {
    const uint8_t *links = file->decoders[demand];
    const uint8_t *entries = links + 2 * file->code.rate;
    for (unsigned row = 0; row < file->code.rate; row++) {
        if (!gives_back(file, field, vectors, links, entries, row)) return false;
    }
    return true;
}

int main(int count, char **words) {
    static struct file file;
    if (count != 2) {
        fprintf(stderr, "usage: check CODE\n");
        return 2;
    }
    take_whole(&file, read_file(words[1]), CODE_MARK);
    const struct code *code = &file.code;
    struct field *field = new_field(code->field);
    uint32_t *vectors = room((size_t)code->link_count * code->rate, sizeof *vectors);
    for (unsigned pattern = 0; pattern < code->pattern_count; pattern++) {
        make_vectors(&file, field, vectors, pattern);
        for (unsigned sink = 0; sink < code->sink_count; sink++) {
            if (!decodes(&file, field, vectors, (size_t)sink * code->pattern_count + pattern)) fail("a demand isn't served");
        }
    }
    printf("accepted rate %u field %u demands %u\n", code->rate, code->field, code->sink_count * code->pattern_count);
    return 0;
}
