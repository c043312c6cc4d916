// Writes a code file to standard output, made from the format that docs/FORMATS.md gives and without the program. It is of
// version 1, and of version 2 where the first word is `-2`; field 9 is in version 2 alone.
//
// `butterfly` is the code of rate 2 over the field of 256 elements through the butterfly, with two sinks.
//
// `fan` takes the field, the rate, and the numbers of middle nodes, of sinks, of links into each sink and of listed
// patterns. A link leads from the source to each middle node, and carries the sum of all rows, row j times power j + 1
// of the middle node's own element. A sink has links from middle nodes that follow one another in a ring, and gets by
// them what these got. Pattern p fails the source's link p, counted in a ring too.
//
// `node` takes a number of links. It is a code of rate 2 over the field of 256 elements: two links from the source, one for
// each row, lead into a node, and so many links from that to the sink. Link number j of them carries the first row and the
// second one times power j of an element.
//
// `layers` takes the numbers of layers, of nodes in each and of links into each node, which is the rate too. It is a code
// over the field of 256 elements. So many links lead from the source to each node of the first layer, and from each node of
// a layer to nodes of the next one that follow one another in a ring; the nodes of the last layer are the sinks. A link
// from the source carries the sum of all rows, and another one that of all links into its tail, with coefficients by
// chance, none of them zero. Where some sink has no decoder then, nothing is written, and it fails.
//
// `unlike` takes the field, a number of links, and a length or 0. It is a code of rate 32 with 16 sinks and 4,095 listed
// patterns, whose 65,536 decoders all differ; they don't decode. So many links lead from the source to a node, and as many from
// that to the sinks, each of which adds up all links into the node. Of the length of the file in version 2 follows how many
// links fail in the patterns, whichever version is written; where it is 0 one does in each.
//
// In the other codes a decoder has the first links into its sink that carry anything, and is the inverse of what they carry.
#include <stdint.h>
#include <stdio.h>
#include <stdlib.h>
#include <string.h>

enum { MOST_RATE = 32, MOST_LINKS = 8192, MOST_NODES = 4096, MOST_PATTERNS = 4095, UNLIKE_SINKS = 16 };

struct operand {
    unsigned from;
    unsigned times;
};

struct link {
    unsigned tail;
    unsigned head;
    unsigned count;
    struct operand operands[MOST_RATE];
};

// Node 0 is the source, and the last nodes are the sinks. Each pattern fails one of the first `failing` links.
struct code {
    unsigned version;
    unsigned field;
    unsigned rate;
    unsigned nodes;
    unsigned sinks;
    unsigned patterns;
    unsigned failing;
    unsigned count;
    struct link links[MOST_LINKS];
    unsigned vectors[MOST_LINKS][MOST_RATE];
};

// The bytes that a file has of one demand.
struct demand {
    size_t length;
    uint8_t bytes[2 * MOST_RATE + 2 * MOST_RATE * MOST_RATE];
};

// The product in the field of octets of a polynomial.
static unsigned octet_product(unsigned polynomial, unsigned left, unsigned right) {
    unsigned sum = 0;
    for (unsigned bit = 0; bit < 8; bit++) {
        if (right >> bit & 1) sum ^= left;
        left <<= 1;
        if (left & 0x100) left ^= polynomial;
    }
    return sum;
}

static unsigned pair_product(unsigned left, unsigned right) {
    unsigned high = octet_product(0x11D, left >> 8, right >> 8);
    unsigned low = octet_product(0x11D, left & 255, right & 255);
    unsigned both = octet_product(0x11D, left >> 8 ^ (left & 255), right >> 8 ^ (right & 255));
    return (both ^ low) << 8 | (low ^ octet_product(0x11D, 0x20, high));
}

static unsigned product(unsigned field, unsigned left, unsigned right) {
    return field == 16 ? pair_product(left, right) : octet_product(field == 9 ? 0x11B : 0x11D, left, right);
}

static unsigned elements(unsigned field) {
    return field == 16 ? 65536 : 256;
}

// An element whose powers are many.
static unsigned base(unsigned field) {
    return field == 16 ? 258 : field == 9 ? 3 : 2;
}

static unsigned power(unsigned field, unsigned element, unsigned exponent) {
    unsigned result = 1;
    for (unsigned bit = 1u << 16; bit != 0; bit >>= 1) {
        result = product(field, result, result);
        if (exponent & bit) result = product(field, result, element);
    }
    return result;
}

static unsigned inverse(unsigned field, unsigned element) {
    return power(field, element, elements(field) - 2);
}

static struct link *add_link(struct code *code, unsigned tail, unsigned head) {
    struct link *link = &code->links[code->count++];
    link->tail = tail;
    link->head = head;
    link->count = 0;
    return link;
}

static void add_operand(struct link *link, unsigned from, unsigned times) {
    link->operands[link->count++] = (struct operand){from, times};
}

// Nodes 1 and 2 get a row each, 3 adds the two up, 4 passes the sum on, and 5 and 6 are the sinks.
static void fill_butterfly(struct code *code) {
    static const struct link links[] = {
        {0, 1, 1, {{0, 1}}},
        {0, 2, 1, {{1, 1}}},
        {1, 5, 1, {{0, 1}}},
        {1, 3, 1, {{0, 1}}},
        {2, 3, 1, {{1, 1}}},
        {2, 6, 1, {{1, 1}}},
        {3, 4, 2, {{3, 1}, {4, 1}}},
        {4, 5, 1, {{6, 1}}},
        {4, 6, 1, {{6, 1}}},
    };
    code->field = 8;
    code->rate = 2;
    code->nodes = 7;
    code->sinks = 2;
    code->count = sizeof links / sizeof *links;
    memcpy(code->links, links, sizeof links);
}

// The own elements of middle nodes are powers of one element. In the field of 65,536 no coefficient is below 256.
static void fill_source_link(struct code *code, unsigned middle) {
    struct link *link = add_link(code, 0, 1 + middle);
    unsigned own = power(code->field, base(code->field), 1 + middle);
    for (unsigned row = 0; row < code->rate; row++) add_operand(link, row, power(code->field, own, 1 + row));
}

static void fill_fan(struct code *code, unsigned middles, unsigned into) {
    code->nodes = 1 + middles + code->sinks;
    code->failing = middles;
    for (unsigned middle = 0; middle < middles; middle++) fill_source_link(code, middle);
    for (unsigned sink = 0; sink < code->sinks; sink++) {
        for (unsigned step = 0; step < into; step++) {
            unsigned middle = (sink + step) % middles;
            add_operand(add_link(code, 1 + middle, 1 + middles + sink), middle, 1);
        }
    }
}

// Node 1 adds up what comes on the two links into it, on each link out with another coefficient.
static void fill_node(struct code *code, unsigned outs) {
    code->field = 8;
    code->rate = 2;
    code->nodes = 3;
    code->sinks = 1;
    for (unsigned row = 0; row < 2; row++) add_operand(add_link(code, 0, 1), row, 1);
    for (unsigned out = 0; out < outs; out++) {
        struct link *link = add_link(code, 1, 2);
        add_operand(link, 0, 1);
        add_operand(link, 1, power(8, 2, out % 255));
    }
}

// Another number each time, as if by chance.
static unsigned next_number(void) {
    static uint32_t state = 1;
    state = state * 1664525 + 1013904223;
    return state >> 16;
}

// The sum of all rows, or of all links so far into the tail.
static void fill_sum(struct code *code, struct link *link) {
    unsigned count = link->tail == 0 ? code->rate : code->count;
    for (unsigned from = 0; from < count; from++) {
        if (link->tail != 0 && code->links[from].head != link->tail) continue;
        add_operand(link, from, power(8, 2, next_number() % 255));
    }
}

static void fill_layers(struct code *code, unsigned layers, unsigned width, unsigned degree) {
    code->field = 8;
    code->rate = degree;
    code->nodes = 1 + layers * width;
    code->sinks = width;
    for (unsigned number = 0; number < layers * width * degree; number++) {
        unsigned layer = number / (width * degree);
        unsigned node = number / degree % width;
        unsigned tail = layer == 0 ? 0 : 1 + (layer - 1) * width + node;
        unsigned place = layer == 0 ? node : (node + number % degree) % width;
        fill_sum(code, add_link(code, tail, 1 + layer * width + place));
    }
}

static void add_scaled(const struct code *code, unsigned *into, unsigned times, const unsigned *from) {
    for (unsigned column = 0; column < code->rate; column++) {
        into[column] ^= product(code->field, times, from[column]);
    }
}

// What a link carries of each row, by what the links before it carry.
static void fill_vector(struct code *code, unsigned number) {
    const struct link *link = &code->links[number];
    unsigned *vector = code->vectors[number];
    for (unsigned place = 0; place < link->count; place++) {
        struct operand operand = link->operands[place];
        if (link->tail == 0) {
            vector[operand.from] ^= operand.times;
        } else {
            add_scaled(code, vector, operand.times, code->vectors[operand.from]);
        }
    }
}

// The vectors of all links, where one fails, or none for a number past the last.
static void fill_vectors(struct code *code, unsigned failed) {
    memset(code->vectors, 0, sizeof code->vectors);
    for (unsigned number = 0; number < code->count; number++) {
        if (number != failed) fill_vector(code, number);
    }
}

static int is_zero(const struct code *code, const unsigned *vector) {
    for (unsigned column = 0; column < code->rate; column++) {
        if (vector[column] != 0) return 0;
    }
    return 1;
}

// The first links into a sink that carry anything, as many as the rate. Whether there are so many.
static int choose_links(const struct code *code, unsigned sink, unsigned *chosen) {
    unsigned found = 0;
    for (unsigned number = 0; number < code->count && found < code->rate; number++) {
        if (code->links[number].head == sink && !is_zero(code, code->vectors[number])) chosen[found++] = number;
    }
    return found == code->rate;
}

static void scale(const struct code *code, unsigned *row, unsigned times) {
    for (unsigned column = 0; column < code->rate; column++) row[column] = product(code->field, row[column], times);
}

// A square matrix, and what makes of it the identity, as far as it has been made that.
struct elimination {
    unsigned left[MOST_RATE][MOST_RATE];
    unsigned right[MOST_RATE][MOST_RATE];
};

static void swap_rows(unsigned *one, unsigned *other) {
    unsigned kept[MOST_RATE];
    memcpy(kept, one, sizeof kept);
    memcpy(one, other, sizeof kept);
    memcpy(other, kept, sizeof kept);
}

// Brings a row whose entry in a column isn't zero to the diagonal, and makes that entry one.
static int place_pivot(const struct code *code, struct elimination *work, unsigned column) {
    unsigned pivot = column;
    while (pivot < code->rate && work->left[pivot][column] == 0) pivot++;
    if (pivot == code->rate) return 0;
    swap_rows(work->left[pivot], work->left[column]);
    swap_rows(work->right[pivot], work->right[column]);
    unsigned times = inverse(code->field, work->left[column][column]);
    scale(code, work->left[column], times);
    scale(code, work->right[column], times);
    return 1;
}

static void clear_column(const struct code *code, struct elimination *work, unsigned column) {
    for (unsigned row = 0; row < code->rate; row++) {
        unsigned times = work->left[row][column];
        if (row == column) continue;
        add_scaled(code, work->left[row], times, work->left[column]);
        add_scaled(code, work->right[row], times, work->right[column]);
    }
}

static int invert(const struct code *code, struct elimination *work) {
    memset(work->right, 0, sizeof work->right);
    for (unsigned row = 0; row < code->rate; row++) work->right[row][row] = 1;
    for (unsigned column = 0; column < code->rate; column++) {
        if (!place_pivot(code, work, column)) return 0;
        clear_column(code, work, column);
    }
    return 1;
}

static void push_number(struct demand *demand, unsigned number) {
    demand->bytes[demand->length++] = (uint8_t)(number >> 8);
    demand->bytes[demand->length++] = (uint8_t)number;
}

static void push_element(struct demand *demand, unsigned field, unsigned element) {
    if (field == 16) demand->bytes[demand->length++] = (uint8_t)(element >> 8);
    demand->bytes[demand->length++] = (uint8_t)element;
}

static void push_demand(const struct code *code, struct demand *demand, const unsigned *chosen,
                        const struct elimination *work) {
    demand->length = 0;
    for (unsigned place = 0; place < code->rate; place++) push_number(demand, chosen[place]);
    for (unsigned row = 0; row < code->rate; row++) {
        for (unsigned column = 0; column < code->rate; column++) {
            push_element(demand, code->field, work->right[row][column]);
        }
    }
}

// Makes the demand of a sink, by the vectors as they are. Whether it can be met.
static int make_demand(const struct code *code, unsigned sink, struct demand *demand) {
    unsigned chosen[MOST_RATE];
    struct elimination work;
    if (!choose_links(code, sink, chosen)) return 0;
    for (unsigned row = 0; row < code->rate; row++) {
        memcpy(work.left[row], code->vectors[chosen[row]], sizeof work.left[row]);
    }
    if (!invert(code, &work)) return 0;
    push_demand(code, demand, chosen, &work);
    return 1;
}

// How many bytes were put, and whether they were only counted.
static size_t put_length;
static int is_counted;

static void put_byte(unsigned byte) {
    put_length++;
    if (!is_counted) putc_unlocked((int)(byte & 255), stdout);
}

static void put_number(unsigned number) {
    put_byte(number >> 8);
    put_byte(number);
}

static void put_element(unsigned field, unsigned element) {
    if (field == 16) put_byte(element >> 8);
    put_byte(element);
}

static void put_name(char letter, unsigned number) {
    char name[32];
    int length = snprintf(name, sizeof name, "%c%u", letter, number);
    put_byte((unsigned)length);
    for (int place = 0; place < length; place++) put_byte((unsigned char)name[place]);
}

static void put_nodes(const struct code *code) {
    unsigned first_sink = code->nodes - code->sinks;
    put_number(code->nodes);
    for (unsigned node = 0; node < first_sink; node++) put_name('n', node);
    for (unsigned sink = 0; sink < code->sinks; sink++) put_name('t', sink);
}

static void put_links(const struct code *code) {
    put_number(code->count);
    for (unsigned number = 0; number < code->count; number++) {
        put_name('l', number);
        put_number(code->links[number].tail);
        put_number(code->links[number].head);
    }
}

static void put_sinks(const struct code *code) {
    put_number(code->sinks);
    for (unsigned sink = 0; sink < code->sinks; sink++) put_number(code->nodes - code->sinks + sink);
}

static void put_patterns(const struct code *code) {
    put_number(code->patterns);
    for (unsigned pattern = 0; pattern < code->patterns; pattern++) {
        put_name('p', pattern);
        put_number(1);
        put_number(pattern % code->failing);
    }
}

static void put_operands(const struct code *code) {
    for (unsigned number = 0; number < code->count; number++) {
        const struct link *link = &code->links[number];
        put_number(link->count);
        for (unsigned place = 0; place < link->count; place++) {
            put_number(link->operands[place].from);
            put_element(code->field, link->operands[place].times);
        }
    }
}

// All before the patterns.
static void put_front(const struct code *code) {
    for (const char *letter = "LIFC"; *letter; letter++) put_byte((unsigned char)*letter);
    put_byte(code->version);
    put_byte(code->field);
    put_byte(code->rate);
    put_nodes(code);
    put_links(code);
    put_number(0);
    put_sinks(code);
}

// What stands in version 2 before a decoder, or in its place: 0, or one more than the number of the demand that has it.
static void put_same(const struct code *code, unsigned same) {
    if (code->version == 1) return;
    put_number(same >> 16);
    put_number(same);
}

static void put_demand(const struct code *code, const struct demand *demand, unsigned same) {
    put_same(code, same);
    if (code->version == 2 && same != 0) return;
    for (size_t place = 0; place < demand->length; place++) put_byte(demand->bytes[place]);
}

static int is_same(const struct demand *one, const struct demand *other) {
    return one->length == other->length && memcmp(one->bytes, other->bytes, one->length) == 0;
}

// Of the decoders of a sink, first that without a failure and then one for each link that fails, the first that is the same.
static unsigned first_same(const struct code *code, unsigned sink, const struct demand *demands, unsigned number) {
    unsigned first = 0;
    while (!is_same(&demands[first * code->sinks + sink], &demands[number * code->sinks + sink])) first++;
    return first;
}

// The demands of a sink, of those of all sinks. Pattern p has decoder 1 + p of the sink, counted in a ring.
static void put_demands(const struct code *code, unsigned sink, const struct demand *demands) {
    unsigned none = sink * (code->patterns + 1);
    put_demand(code, &demands[sink], 0);
    for (unsigned pattern = 0; pattern < code->patterns; pattern++) {
        unsigned number = 1 + pattern % code->failing;
        unsigned first = first_same(code, sink, demands, number);
        put_demand(code, &demands[number * code->sinks + sink], first == 1 + pattern ? 0 : 1 + none + first);
    }
}

// Makes the demand of each sink, where one link fails.
static int make_demands(struct code *code, unsigned failed, struct demand *demands) {
    fill_vectors(code, failed);
    for (unsigned sink = 0; sink < code->sinks; sink++) {
        if (!make_demand(code, code->nodes - code->sinks + sink, &demands[sink])) return 0;
    }
    return 1;
}

static int write_code(struct code *code) {
    unsigned failing = code->patterns < code->failing ? code->patterns : code->failing;
    struct demand *demands = malloc((failing + 1) * code->sinks * sizeof *demands);
    if (!demands || !make_demands(code, code->count, demands)) return 1;
    for (unsigned failed = 0; failed < failing; failed++) {
        if (!make_demands(code, failed, demands + (failed + 1) * code->sinks)) return 1;
    }
    put_front(code);
    put_patterns(code);
    put_operands(code);
    for (unsigned sink = 0; sink < code->sinks; sink++) put_demands(code, sink, demands);
    free(demands);
    return fflush(stdout) != 0 || ferror(stdout);
}

// The patterns of `unlike`, in which so many links fail beside the first one, all patterns together. Where there is a byte more
// the first pattern has a longer name.
static void put_unlike_patterns(const struct code *code, size_t more, unsigned byte) {
    put_number(code->patterns);
    for (unsigned pattern = 0; pattern < code->patterns; pattern++) {
        unsigned failed = more < code->count ? 1 + (unsigned)more : code->count;
        more -= failed - 1;
        put_name(byte && pattern == 0 ? 'q' : 'p', byte && pattern == 0 ? 10 : pattern);
        put_number(failed);
        for (unsigned link = 0; link < failed; link++) put_number(link);
    }
}

static void put_unlike_operands(const struct code *code) {
    unsigned ins = code->count / 2;
    for (unsigned number = 0; number < code->count; number++) {
        unsigned count = number < ins ? code->rate : ins;
        put_number(count);
        for (unsigned from = 0; from < count; from++) {
            put_number(from);
            put_element(code->field, 1 + (number + from) % 255);
        }
    }
}

// The decoder of each demand has the first links into its sink, and its pattern's number in the first entries.
static void put_unlike_decoder(const struct code *code, unsigned sink, unsigned pattern) {
    unsigned ins = code->count / 2;
    put_same(code, 0);
    for (unsigned place = 0; place < code->rate; place++) put_number(ins + sink * (ins / UNLIKE_SINKS) + place);
    for (unsigned place = 0; place < code->rate * code->rate; place++) {
        unsigned own = place == 0 ? pattern >> 8 : pattern;
        put_element(code->field, place < 2 ? own : next_number());
    }
}

static int write_unlike(struct code *code, size_t length) {
    size_t rest = 0;
    is_counted = 1;
    put_front(code);
    put_unlike_patterns(code, 0, 0);
    put_unlike_operands(code);
    put_length += (size_t)UNLIKE_SINKS * (code->patterns + 1) *
                  (4 + 2 * code->rate + (size_t)code->rate * code->rate * (code->field == 16 ? 2 : 1));
    if (length != 0) {
        rest = length - put_length;
        if (length < put_length || rest / 2 > (size_t)code->patterns * (code->count - 1)) return 1;
    }
    is_counted = 0;
    put_front(code);
    put_unlike_patterns(code, rest / 2, rest % 2);
    put_unlike_operands(code);
    for (unsigned sink = 0; sink < UNLIKE_SINKS; sink++) {
        for (unsigned pattern = 0; pattern <= code->patterns; pattern++) put_unlike_decoder(code, sink, pattern);
    }
    return fflush(stdout) != 0 || ferror(stdout);
}

static int say_usage(void) {
    fprintf(stderr, "usage: codes [-2] butterfly | node LINKS | fan FIELD RATE MIDDLES SINKS INTO PATTERNS | "
                    "layers LAYERS WIDTH DEGREE | unlike FIELD LINKS LENGTH\n");
    return 2;
}

static unsigned number(const char *word) {
    return (unsigned)strtoul(word, NULL, 10);
}

static int is_field(const struct code *code) {
    return code->field == 8 || code->field == 16 || (code->field == 9 && code->version == 2);
}

// Whether a fan is within the limits of the format. How many patterns all sinks together may have isn't looked at.
static int is_fan(const struct code *code, unsigned middles, unsigned into) {
    return is_field(code) && code->rate >= 1 && code->rate <= MOST_RATE && into >= 1 &&
           into <= middles && middles < MOST_NODES && code->sinks >= 1 && code->sinks < MOST_NODES - middles &&
           middles + code->sinks * into <= MOST_LINKS && code->patterns <= MOST_PATTERNS;
}

static int run_fan(struct code *code, char **words) {
    unsigned middles = number(words[2]);
    unsigned into = number(words[4]);
    code->field = number(words[0]);
    code->rate = number(words[1]);
    code->sinks = number(words[3]);
    code->patterns = number(words[5]);
    if (!is_fan(code, middles, into)) return say_usage();
    fill_fan(code, middles, into);
    return write_code(code);
}

static int run_node(struct code *code, const char *word) {
    unsigned outs = number(word);
    if (outs < 2 || outs > MOST_LINKS - 2) return say_usage();
    fill_node(code, outs);
    return write_code(code);
}

// Whether layers are within the limits of the format. Links from a node are as many as those into one.
static int is_layers(unsigned layers, unsigned width, unsigned degree) {
    return layers >= 1 && layers < MOST_NODES && width >= 1 && width < MOST_NODES && layers * width < MOST_NODES &&
           degree >= 1 && degree <= MOST_RATE && degree <= width && layers * width * degree <= MOST_LINKS;
}

static int run_layers(struct code *code, char **words) {
    unsigned layers = number(words[0]);
    unsigned width = number(words[1]);
    unsigned degree = number(words[2]);
    if (!is_layers(layers, width, degree)) return say_usage();
    fill_layers(code, layers, width, degree);
    return write_code(code);
}

// From the source to the node, and from that to the sinks, to each as many.
static void fill_unlike(struct code *code, unsigned ins) {
    code->rate = MOST_RATE;
    code->nodes = 2 + UNLIKE_SINKS;
    code->sinks = UNLIKE_SINKS;
    code->patterns = MOST_PATTERNS;
    for (unsigned number = 0; number < ins; number++) add_link(code, 0, 1);
    for (unsigned number = 0; number < ins; number++) add_link(code, 1, 2 + number / (ins / UNLIKE_SINKS));
}

static int run_unlike(struct code *code, char **words) {
    unsigned ins = number(words[1]);
    code->field = number(words[0]);
    if (!is_field(code) || ins > MOST_LINKS / 2 || ins % UNLIKE_SINKS != 0 || ins / UNLIKE_SINKS < MOST_RATE) return say_usage();
    fill_unlike(code, ins);
    return write_unlike(code, strtoul(words[2], NULL, 10));
}

int main(int count, char **words) {
    static struct code code;
    code.version = count > 1 && strcmp(words[1], "-2") == 0 ? 2 : 1;
    words += code.version;
    count -= (int)code.version;
    if (count == 2 && strcmp(words[0], "node") == 0) return run_node(&code, words[1]);
    if (count == 4 && strcmp(words[0], "layers") == 0) return run_layers(&code, words + 1);
    if (count == 4 && strcmp(words[0], "unlike") == 0) return run_unlike(&code, words + 1);
    if (count == 7 && strcmp(words[0], "fan") == 0) return run_fan(&code, words + 1);
    if (count != 1 || strcmp(words[0], "butterfly") != 0) return say_usage();
    fill_butterfly(&code);
    return write_code(&code);
}
