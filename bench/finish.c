// Finds the decoders of a draft, as `lif finish` does: `finish` with its words makes the same file and says the same, where all
// demands decode. `inverses` takes a code file and a number, and inverts by `jerasure_invert_matrix` what the links of each decoder
// carry whose demand's number that one divides. It prints the nanoseconds that the calls took and how many there were, and fails
// where an inverse isn't the decoder's matrix.
//
// For each pattern the vectors of all links are made, and for each sink the links into it are taken in until there are as many rows
// as the rate. A row is the vector, with zeros up to 64 octets, and behind it the unit vector of how many links were kept. What is
// kept clears it; then it is divided by its first element, and clears what is kept. In the end the row at each place has the unit
// vector of that place, and behind it that row of the decoder. Rows are added by look-ups in tables of 16, with vectors of 32 octets
// where the compiler may take them. Of pairs each half of a row, of 64 octets, has first the high octets and then the low ones.
#include "whole_code.h"

#include <immintrin.h>
#include <inttypes.h>
#include <jerasure.h>
#include <time.h>

enum { VECTOR = 64, LOW = 32, ROW_ROOM = 2 * VECTOR, CONSTANT = 0x20, PAIRS = 65536, MARK_AND_VERSION = 5 };

#ifdef __AVX2__
typedef __m256i lanes;
#else
typedef __m128i lanes;
#endif

// The products of an octet with octets below 16 and with their multiples of 16.
struct tables {
    lanes low;
    lanes high;
};

// The rows that are kept, each at the place of its first element, and their links.
struct span {
    unsigned rank;
    bool has[MOST_RATE];
    unsigned links[MOST_RATE];
    uint8_t rows[MOST_RATE][ROW_ROOM] __attribute__((aligned(64)));
};

// A draft, the links into each sink, and what is made of them: the vectors of all links under a pattern, and the bytes of all
// decoders.
struct finish {
    struct file file;
    unsigned *in_counts;
    unsigned **ins;
    uint8_t *vectors;
    size_t text_length;
    uint8_t *texts;
};

static uint8_t products[256][2][16] __attribute__((aligned(32)));
static uint8_t inverses[256];

static uint8_t octet_product(uint8_t left, uint8_t right) {
    return products[left][0][right & 15] ^ products[left][1][right >> 4];
}

static void fill_products(unsigned field) {
    for (unsigned element = 0; element < 256; element++) {
        unsigned multiple = element;
        for (unsigned bit = 0; bit < 8; bit++) {
            uint8_t *table = products[element][bit / 4];
            unsigned count = 1u << bit % 4;
            for (unsigned nibble = 0; nibble < count; nibble++) table[count + nibble] = table[nibble] ^ (uint8_t)multiple;
            multiple <<= 1;
            if (multiple & 0x100) multiple ^= field == 9 ? 0x11B : 0x11D;
        }
    }
    // The powers of 3 are all elements of the field 9, and those of 2 all of the other one.
    uint8_t power = 1, inverse = 1, step = field == 9 ? 3 : 2, back = field == 9 ? 0xF6 : 0x8E;
    for (unsigned exponent = 0; exponent < 255; exponent++) {
        inverses[power] = inverse;
        power = octet_product(power, step);
        inverse = octet_product(inverse, back);
    }
}

static unsigned pair_product(unsigned left, unsigned right) {
    uint8_t high = octet_product((uint8_t)(left >> 8), (uint8_t)(right >> 8));
    uint8_t low = octet_product((uint8_t)left, (uint8_t)right);
    uint8_t both = octet_product((uint8_t)(left >> 8 ^ left), (uint8_t)(right >> 8 ^ right));
    return (unsigned)(both ^ low) << 8 | (low ^ octet_product(CONSTANT, high));
}

static unsigned inverse_of(const struct code *code, unsigned element) {
    if (code->field != 16) return inverses[element];
    // An element times that with the high octet added to the low one is an octet.
    uint8_t high = (uint8_t)(element >> 8), other = (uint8_t)(high ^ element);
    uint8_t by = inverses[pair_product(element, (unsigned)high << 8 | other)];
    return (unsigned)octet_product(high, by) << 8 | octet_product(other, by);
}

static inline struct tables tables_of(unsigned octet) {
    __m128i low = _mm_load_si128((const __m128i *)products[octet][0]);
    __m128i high = _mm_load_si128((const __m128i *)products[octet][1]);
#ifdef __AVX2__
    return (struct tables){_mm256_broadcastsi128_si256(low), _mm256_broadcastsi128_si256(high)};
#else
    return (struct tables){low, high};
#endif
}

static inline lanes times(struct tables tables, lanes octets) {
#ifdef __AVX2__
    lanes mask = _mm256_set1_epi8(15);
    return _mm256_shuffle_epi8(tables.low, octets & mask) ^ _mm256_shuffle_epi8(tables.high, _mm256_srli_epi64(octets, 4) & mask);
#else
    lanes mask = _mm_set1_epi8(15);
    return _mm_shuffle_epi8(tables.low, octets & mask) ^ _mm_shuffle_epi8(tables.high, _mm_srli_epi64(octets, 4) & mask);
#endif
}

static inline lanes lanes_at(const uint8_t *at) {
    return *(const lanes *)at;
}

static inline void add_at(uint8_t *at, lanes octets) {
    *(lanes *)at ^= octets;
}

static inline void add_octets(uint8_t *into, const uint8_t *from, size_t length, unsigned by) {
    struct tables tables = tables_of(by);
    for (size_t at = 0; at < length; at += sizeof(lanes)) add_at(into + at, times(tables, lanes_at(from + at)));
}

static inline void add_pairs(uint8_t *into, const uint8_t *from, size_t length, unsigned by) {
    unsigned high = by >> 8, low = by & 255;
    struct tables of_high = tables_of(high), of_low = tables_of(low), both = tables_of(high ^ low);
    struct tables wrapped = tables_of(octet_product(CONSTANT, (uint8_t)high));
    for (size_t half = 0; half < length; half += VECTOR) {
        for (size_t at = half; at < half + LOW; at += sizeof(lanes)) {
            lanes highs = lanes_at(from + at), lows = lanes_at(from + at + LOW);
            add_at(into + at, times(both, highs) ^ times(of_high, lows));
            add_at(into + at + LOW, times(of_low, lows) ^ times(wrapped, highs));
        }
    }
}

// Adds a row times an element to another one.
static inline void add_scaled(const struct code *code, uint8_t *into, const uint8_t *from, size_t length, unsigned by) {
    if (by == 0) return;
    if (by == 1) {
        for (size_t at = 0; at < length; at += sizeof(lanes)) add_at(into + at, lanes_at(from + at));
    } else if (code->field == 16) {
        add_pairs(into, from, length, by);
    } else {
        add_octets(into, from, length, by);
    }
}

static inline unsigned element_at(const struct code *code, const uint8_t *row, unsigned place) {
    return code->field == 16 ? (unsigned)row[place] << 8 | row[place + LOW] : row[place];
}

static inline void add_element(const struct code *code, uint8_t *row, unsigned place, unsigned element) {
    row[code->field == 16 ? place + LOW : place] ^= (uint8_t)element;
    if (code->field == 16) row[place] ^= (uint8_t)(element >> 8);
}

// Takes in a link, and keeps it where its vector isn't a sum of multiples of those that are kept.
static void take_in(const struct code *code, struct span *span, unsigned link, const uint8_t *vector) {
    uint8_t row[ROW_ROOM] __attribute__((aligned(64))) = {0};
    unsigned rate = code->rate, first = 0;
    memcpy(row, vector, VECTOR);
    add_element(code, row + VECTOR, span->rank, 1);
    for (unsigned place = 0; place < rate; place++) {
        if (span->has[place]) add_scaled(code, row, span->rows[place], ROW_ROOM, element_at(code, vector, place));
    }
    while (first < rate && element_at(code, row, first) == 0) first++;
    if (first == rate) return;
    uint8_t *kept = span->rows[first];
    memset(kept, 0, ROW_ROOM);
    add_scaled(code, kept, row, ROW_ROOM, inverse_of(code, element_at(code, row, first)));
    for (unsigned place = 0; place < rate; place++) {
        uint8_t *other = span->rows[place];
        if (span->has[place]) add_scaled(code, other, kept, ROW_ROOM, element_at(code, other, first));
    }
    span->has[first] = true;
    span->links[span->rank++] = link;
}

static void make_vectors(const struct file *file, uint8_t *vectors, unsigned pattern) {
    const struct code *code = &file->code;
    fail_links(file, pattern);
    for (unsigned link = 0; link < code->link_count; link++) {
        uint8_t *vector = vectors + (size_t)link * VECTOR;
        const struct operands *operands = &file->operands[link];
        memset(vector, 0, VECTOR);
        for (unsigned place = 0; place < operands->count && !code->links[link].has_failed; place++) {
            struct operand operand = operands->at[place];
            if (code->links[link].tail == code->source) {
                add_element(code, vector, operand.from, operand.times);
            } else {
                add_scaled(code, vector, vectors + (size_t)operand.from * VECTOR, VECTOR, operand.times);
            }
        }
    }
}

static uint8_t *new_vectors(const struct code *code) {
    uint8_t *vectors;
    if (posix_memalign((void **)&vectors, VECTOR, (size_t)code->link_count * VECTOR + 1) != 0) fail("there is no memory");
    return vectors;
}

static void list_ins(struct finish *finish) {
    const struct code *code = &finish->file.code;
    finish->in_counts = room(code->sink_count, sizeof *finish->in_counts);
    finish->ins = room(code->sink_count, sizeof *finish->ins);
    for (unsigned sink = 0; sink < code->sink_count; sink++) {
        finish->ins[sink] = room(code->link_count, sizeof **finish->ins);
        for (unsigned link = 0; link < code->link_count; link++) {
            if (code->links[link].head == code->sinks[sink].node) finish->ins[sink][finish->in_counts[sink]++] = link;
        }
    }
}

static void write_text(const struct code *code, const struct span *span, uint8_t *text) {
    for (unsigned place = 0; place < code->rate; place++) {
        *text++ = (uint8_t)(span->links[place] >> 8);
        *text++ = (uint8_t)span->links[place];
    }
    for (unsigned row = 0; row < code->rate; row++) {
        const uint8_t *elements = span->rows[row] + VECTOR;
        if (code->field != 16) {
            memcpy(text, elements, code->rate);
            text += code->rate;
            continue;
        }
        for (unsigned place = 0; place < code->rate; place++, text += 2) {
            text[0] = elements[place];
            text[1] = elements[place + LOW];
        }
    }
}

static void solve(const struct finish *finish, struct span *span, unsigned sink, unsigned pattern) {
    const struct code *code = &finish->file.code;
    span->rank = 0;
    memset(span->has, 0, sizeof span->has);
    for (unsigned in = 0; in < finish->in_counts[sink] && span->rank < code->rate; in++) {
        unsigned link = finish->ins[sink][in];
        take_in(code, span, link, finish->vectors + (size_t)link * VECTOR);
    }
    if (span->rank < code->rate) fail("a demand doesn't decode");
    write_text(code, span, finish->texts + ((size_t)sink * code->pattern_count + pattern) * finish->text_length);
}

static void solve_all(struct finish *finish) {
    const struct code *code = &finish->file.code;
    struct span *span;
    if (posix_memalign((void **)&span, VECTOR, sizeof *span) != 0) fail("there is no memory");
    finish->vectors = new_vectors(code);
    for (unsigned pattern = 0; pattern < code->pattern_count; pattern++) {
        make_vectors(&finish->file, finish->vectors, pattern);
        for (unsigned sink = 0; sink < code->sink_count; sink++) solve(finish, span, sink, pattern);
    }
}

static uint64_t hash_of(const uint8_t *text, size_t length) {
    uint64_t hash = length, word;
    for (; length >= sizeof word; text += sizeof word, length -= sizeof word) {
        memcpy(&word, text, sizeof word);
        hash = (hash ^ word) * 0x9E3779B97F4A7C15;
        hash ^= hash >> 32;
    }
    for (; length > 0; text++, length--) hash = (hash ^ *text) * 0x9E3779B97F4A7C15;
    return hash >> 40;
}

// One more than the number of the first demand with the same text, or 0 where it is this one. The slots have such numbers.
static uint32_t same_of(const struct finish *finish, uint32_t *slots, size_t mask, uint32_t demand) {
    size_t length = finish->text_length;
    const uint8_t *text = finish->texts + demand * length;
    size_t slot = hash_of(text, length) & mask;
    for (; slots[slot] != 0; slot = (slot + 1) & mask) {
        if (memcmp(finish->texts + (slots[slot] - 1) * length, text, length) == 0) return slots[slot];
    }
    slots[slot] = demand + 1;
    return 0;
}

// Writes the decoders behind what the draft has, and says where they end.
static uint8_t *put_decoders(const struct finish *finish, size_t count, uint8_t *at) {
    size_t mask = 1;
    while (mask < 2 * count) mask *= 2;
    uint32_t *slots = room(mask--, sizeof *slots);
    for (uint32_t demand = 0; demand < count; demand++) {
        uint32_t same = same_of(finish, slots, mask, demand);
        for (int shift = 24; shift >= 0; shift -= 8) *at++ = (uint8_t)(same >> shift);
        if (same != 0) continue;
        memcpy(at, finish->texts + demand * finish->text_length, finish->text_length);
        at += finish->text_length;
    }
    return at;
}

static void write_code(const struct finish *finish, struct bytes draft, size_t count, const char *path) {
    static const uint8_t front[MARK_AND_VERSION] = {'L', 'I', 'F', 'C', 2};
    uint8_t *bytes = room(draft.length + count * (4 + finish->text_length), 1);
    memcpy(bytes, draft.at, draft.length);
    memcpy(bytes, front, sizeof front);
    const uint8_t *end = put_decoders(finish, count, bytes + draft.length);
    int file = open(path, O_WRONLY | O_CREAT | O_TRUNC, 0666);
    if (file < 0) fail("a file can't be made");
    for (ssize_t written; bytes < end; bytes += written) {
        written = write(file, bytes, (size_t)(end - bytes));
        if (written <= 0) fail("a write failed");
    }
    if (close(file) != 0) fail("a write failed");
}

static int run_finish(char **words) {
    static struct finish finish;
    const struct code *code = &finish.file.code;
    struct bytes draft = read_file(words[0]);
    take_whole(&finish.file, draft, DRAFT_MARK);
    fill_products(code->field);
    list_ins(&finish);
    size_t count = (size_t)code->sink_count * code->pattern_count;
    finish.text_length = 2 * code->rate + (size_t)code->rate * code->rate * width_of(code);
    finish.texts = room(count, finish.text_length);
    solve_all(&finish);
    write_code(&finish, draft, count, words[1]);
    printf("finished rate %u field %u demands %zu\n", code->rate, code->field, count);
    return 0;
}

// The library's field of 65,536 elements is another one. `own` has for each of its elements that of the code's field, and `other`
// the reverse.
static uint16_t own[PAIRS], other[PAIRS];

// Fills both by an element whose powers stand for those of the library's x, of which x^16 + x^12 + x^3 + x + 1 is zero.
static bool fill_other(unsigned x) {
    unsigned powers[17] = {1};
    for (unsigned exponent = 1; exponent <= 16; exponent++) powers[exponent] = pair_product(powers[exponent - 1], x);
    if ((powers[16] ^ powers[12] ^ powers[3] ^ powers[1] ^ powers[0]) != 0) return false;
    for (unsigned element = 0; element < PAIRS; element++) {
        unsigned sum = 0;
        for (unsigned bit = 0; bit < 16; bit++) sum ^= element >> bit & 1 ? powers[bit] : 0;
        own[element] = (uint16_t)sum;
        other[sum] = (uint16_t)element;
    }
    return true;
}

static void fill_others(unsigned field) {
    unsigned x = 2;
    if (field == 9) fail("the library has another field");
    while (field == 16 && !fill_other(x)) x++;
    for (unsigned octet = 0; field == 8 && octet < 256; octet++) own[octet] = other[octet] = (uint16_t)octet;
    if (galois_single_multiply(1, 1, (int)field) != 1) fail("the library has no such field");
}

static uint64_t now(void) {
    struct timespec time;
    clock_gettime(CLOCK_MONOTONIC, &time);
    return (uint64_t)time.tv_sec * 1000000000 + (uint64_t)time.tv_nsec;
}

// Inverts what the links of a decoder carry, and says how long that took. The inverse has to be the decoder's matrix.
static uint64_t invert(const struct code *code, const uint8_t *vectors, const uint8_t *text) {
    int matrix[MOST_RATE * MOST_RATE], inverse[MOST_RATE * MOST_RATE];
    struct bytes rest = {(uint8_t *)text, SIZE_MAX};
    unsigned rate = code->rate;
    for (unsigned row = 0; row < rate; row++) {
        const uint8_t *vector = vectors + (size_t)take_below(&rest, 2, code->link_count) * VECTOR;
        for (unsigned column = 0; column < rate; column++) matrix[row * rate + column] = other[element_at(code, vector, column)];
    }
    uint64_t start = now();
    int status = jerasure_invert_matrix(matrix, inverse, (int)rate, (int)code->field);
    uint64_t elapsed = now() - start;
    if (status != 0) fail("the library finds no inverse");
    for (unsigned place = 0; place < rate * rate; place++) {
        if (take(&rest, width_of(code)) != own[inverse[place]]) fail("the library's inverse isn't the decoder");
    }
    return elapsed;
}

static int run_inverses(const char *path, size_t step) {
    static struct file file;
    const struct code *code = &file.code;
    uint64_t elapsed = 0;
    size_t count = 0;
    take_whole(&file, read_file(path), CODE_MARK);
    fill_products(code->field);
    fill_others(code->field);
    uint8_t *vectors = new_vectors(code);
    for (unsigned pattern = 0; pattern < code->pattern_count; pattern++) {
        make_vectors(&file, vectors, pattern);
        for (size_t demand = pattern; demand < (size_t)code->sink_count * code->pattern_count; demand += code->pattern_count) {
            if (demand % step != 0) continue;
            elapsed += invert(code, vectors, file.decoders[demand]);
            count++;
        }
    }
    printf("%" PRIu64 " %zu\n", elapsed, count);
    return 0;
}

int main(int count, char **words) {
    if (count == 4 && strcmp(words[1], "finish") == 0) return run_finish(words + 2);
    size_t step = count == 4 && strcmp(words[1], "inverses") == 0 ? strtoul(words[3], NULL, 10) : 0;
    if (step != 0) return run_inverses(words[2], step);
    fprintf(stderr, "usage: finish finish DRAFT CODE | inverses CODE NUMBER\n");
    return 2;
}
