// Sends a source through a code where links fail as headed frames, as `lif blind` does, with the products of ISA-L: `blind` with its
// words. It makes the same files and says the same. `heads` takes a field and a rate, and writes the headed frames of as many links
// as rows; `feed` takes these, a number of rounds, and such frames on standard input, and feeds a sink with them, over and over. It
// prints the nanoseconds that it took, the number of frames, and a checksum of the blocks. Fields of octets alone.
//
// For each block of the source the rows of all live links are made, one after another, by a call of the library for each. Of each
// whole sink the frames of the links into it are written one by one, read back, and taken in: a row is the vector, with zeros up to
// 64 octets, and the payload. What is kept clears it, by a call for each row; then it is divided by its first element, and clears
// what is kept. The files are kept open.
#include "code_file.h"
#include "frame.h"

#include <inttypes.h>
#include <isa-l/erasure_code.h>
#include <time.h>

enum { COUNT = 4, VECTOR = 64, KEPT = VECTOR + PIECE, MOST_FRAME = FRAME + MOST_RATE };

// The rows that are kept of a piece, each at the place of its first element.
struct span {
    unsigned rank;
    bool has[MOST_RATE];
    uint8_t rows[MOST_RATE][KEPT] __attribute__((aligned(64)));
};

// A sink: its node, its rank, the live links into it, its file, and what is kept.
struct receiver {
    unsigned node;
    unsigned rank;
    unsigned in_count;
    unsigned *ins;
    int file;
};

struct blind {
    struct code code;
    uint8_t *vectors;
    uint8_t *rows;
    uint8_t **tables;
    uint8_t *block;
    uint8_t *decoded;
    struct receiver *receivers;
    struct span *spans;
};

// What stands for each element: the products with octets below 16 and with their multiples of 16; and the element's inverse.
static uint8_t products[256][32];
static uint8_t inverses[256];

static const uint8_t mark[] = {'L', 'F', 2};

static uint8_t product(unsigned field, uint8_t left, uint8_t right) {
    unsigned sum = 0;
    unsigned multiple = left;
    for (unsigned bit = 0; bit < 8; bit++) {
        if (right >> bit & 1) sum ^= multiple;
        multiple <<= 1;
        if (multiple & 0x100) multiple ^= field == 9 ? 0x11B : 0x11D;
    }
    return (uint8_t)sum;
}

static void fill_products(unsigned field) {
    if (field != 8 && field != 9) fail("the field has no octets");
    for (unsigned element = 0; element < 256; element++) {
        for (unsigned nibble = 0; nibble < 16; nibble++) {
            products[element][nibble] = product(field, (uint8_t)element, (uint8_t)nibble);
            products[element][16 + nibble] = product(field, (uint8_t)element, (uint8_t)(nibble << 4));
        }
        for (unsigned other = 0; other < 256; other++) {
            if (product(field, (uint8_t)element, (uint8_t)other) == 1) inverses[element] = (uint8_t)other;
        }
    }
}

// Adds a row times an element to another one.
static void add_scaled(uint8_t *into, uint8_t *from, uint8_t element) {
    gf_vect_mad(KEPT, 1, 0, products[element], from, into);
}

static void clear(struct span *spans) {
    for (unsigned piece = 0; piece < PIECES; piece++) {
        spans[piece].rank = 0;
        memset(spans[piece].has, 0, sizeof spans[piece].has);
    }
}

// Takes in a row, and keeps it where its vector isn't a sum of multiples of those kept.
static void take_in(struct span *span, unsigned rate, uint8_t *row) {
    for (unsigned place = 0; place < rate; place++) {
        if (span->has[place] && row[place] != 0) add_scaled(row, span->rows[place], row[place]);
    }
    unsigned first = 0;
    while (first < rate && row[first] == 0) first++;
    if (first == rate) return;
    uint8_t *kept = span->rows[first];
    // `gf_vect_mul` writes past the caches, and what it wrote is wanted at once.
    if (row[first] == 1) {
        memcpy(kept, row, KEPT);
    } else {
        memset(kept, 0, KEPT);
        add_scaled(kept, row, inverses[row[first]]);
    }
    for (unsigned place = 0; place < rate; place++) {
        uint8_t *other = span->rows[place];
        if (span->has[place] && other[first] != 0) add_scaled(other, kept, other[first]);
    }
    span->has[first] = true;
    span->rank++;
}

static bool is_whole(const struct span *spans, unsigned rate) {
    for (unsigned piece = 0; piece < PIECES; piece++) {
        if (spans[piece].rank != rate) return false;
    }
    return true;
}

static void write_frame(uint8_t *frame, unsigned link, uint32_t generation, unsigned piece, const uint8_t *vector, unsigned rate,
                        const uint8_t *payload) {
    put_head(frame, link, generation, piece);
    frame[2] = mark[2];
    memcpy(frame + HEAD, vector, rate);
    memcpy(frame + HEAD + rate, payload, PIECE);
}

// Reads a frame, and takes in what it brings.
static void accept(struct span *spans, unsigned rate, const uint8_t *frame, size_t length) {
    uint8_t row[KEPT] __attribute__((aligned(64)));
    if (length != FRAME + rate || memcmp(frame, mark, sizeof mark) != 0 || piece_of(frame) >= PIECES) fail("a frame is none");
    memset(row, 0, VECTOR);
    memcpy(row, frame + HEAD, rate);
    memcpy(row + VECTOR, frame + HEAD + rate, PIECE);
    take_in(&spans[piece_of(frame)], rate, row);
}

static void write_block(const struct span *spans, unsigned rate, uint8_t *block) {
    for (unsigned row = 0; row < rate; row++) {
        for (unsigned piece = 0; piece < PIECES; piece++) {
            memcpy(block + (size_t)row * ROW + piece * PIECE, spans[piece].rows[row] + VECTOR, PIECE);
        }
    }
}

// The code, of which these links fail.
static void take_failed(struct code *code, struct bytes rest, char **names, int count) {
    take_named(code, &rest, "none");
    for (int word = 0; word < count; word++) {
        unsigned link = 0;
        while (link < code->link_count && strcmp(code->links[link].name, names[word]) != 0) link++;
        if (link == code->link_count) fail("there is no such link");
        code->links[link].has_failed = true;
    }
    take_sums(code, &rest);
}

static const uint8_t *operand_row(const struct blind *blind, const struct link *link, unsigned from) {
    return (link->tail == blind->code.source ? blind->block : blind->rows) + (size_t)from * ROW;
}

static void open_link(struct blind *blind, unsigned number) {
    const struct code *code = &blind->code;
    const struct link *link = &code->links[number];
    uint8_t *vector = blind->vectors + (size_t)number * code->rate;
    blind->tables[number] = room(link->count, 32);
    for (unsigned place = 0; place < link->count; place++) {
        const struct operand *operand = &link->operands[place];
        memcpy(blind->tables[number] + 32 * place, products[operand->times], 32);
        if (link->tail == code->source) {
            vector[operand->from] ^= (uint8_t)operand->times;
            continue;
        }
        for (unsigned row = 0; row < code->rate; row++) {
            vector[row] ^= product(code->field, (uint8_t)operand->times, blind->vectors[(size_t)operand->from * code->rate + row]);
        }
    }
}

// Makes the rows of all live links of the block.
static void carry(struct blind *blind) {
    const struct code *code = &blind->code;
    uint8_t *from[MOST_OPERANDS];
    for (unsigned number = 0; number < code->link_count; number++) {
        const struct link *link = &code->links[number];
        uint8_t *into = blind->rows + (size_t)number * ROW;
        if (!link->is_live) continue;
        for (unsigned place = 0; place < link->count; place++) {
            from[place] = (uint8_t *)operand_row(blind, link, link->operands[place].from);
        }
        if (link->count == 1 && link->operands[0].times == 1) {
            memcpy(into, from[0], ROW);
        } else {
            ec_encode_data(ROW, (int)link->count, 1, blind->tables[number], from, &into);
        }
    }
}

static void open_receiver(struct blind *blind, unsigned place, const char *prefix) {
    const struct code *code = &blind->code;
    struct receiver *receiver = &blind->receivers[place];
    receiver->node = code->sinks[place].node;
    receiver->ins = room(code->link_count, sizeof *receiver->ins);
    clear(blind->spans);
    for (unsigned link = 0; link < code->link_count; link++) {
        if (!code->links[link].is_live || code->links[link].head != receiver->node) continue;
        uint8_t row[KEPT] __attribute__((aligned(64))) = {0};
        memcpy(row, blind->vectors + (size_t)link * code->rate, code->rate);
        receiver->ins[receiver->in_count++] = link;
        take_in(&blind->spans[0], code->rate, row);
    }
    receiver->rank = blind->spans[0].rank;
    receiver->file = -1;
    if (receiver->rank < code->rate) return;
    char path[4096];
    snprintf(path, sizeof path, "%s.%s", prefix, code->names[receiver->node]);
    receiver->file = open(path, O_WRONLY | O_CREAT | O_TRUNC | O_APPEND, 0666);
    if (receiver->file < 0) fail("a file can't be made");
}

// Feeds a whole sink with frames until it has the block, and adds what that counts to its file.
static void deliver(struct blind *blind, const struct receiver *receiver, uint32_t generation) {
    unsigned rate = blind->code.rate;
    uint8_t frame[MOST_FRAME];
    clear(blind->spans);
    for (unsigned in = 0; in < receiver->in_count && !is_whole(blind->spans, rate); in++) {
        unsigned link = receiver->ins[in];
        for (unsigned piece = 0; piece < PIECES; piece++) {
            const uint8_t *payload = blind->rows + (size_t)link * ROW + piece * PIECE;
            write_frame(frame, link, generation, piece, blind->vectors + (size_t)link * rate, rate, payload);
            accept(blind->spans, rate, frame, FRAME + rate);
        }
    }
    write_block(blind->spans, rate, blind->decoded);
    uint32_t count = number_at(blind->decoded);
    if (count > 0 && write(receiver->file, blind->decoded + COUNT, count) != (ssize_t)count) fail("a write failed");
}

static void send_block(struct blind *blind, const uint8_t *bytes, size_t count, uint32_t generation) {
    size_t most = blind->code.rate * ROW - COUNT;
    put_number(blind->block, (uint32_t)count);
    memcpy(blind->block + COUNT, bytes, count);
    memset(blind->block + COUNT + count, 0, most - count);
    carry(blind);
    for (unsigned place = 0; place < blind->code.sink_count; place++) {
        if (blind->receivers[place].file >= 0) deliver(blind, &blind->receivers[place], generation);
    }
}

// Reads on until so many bytes are there or the file ends.
static size_t fill(int file, uint8_t *into, size_t length) {
    size_t filled = 0;
    ssize_t count;
    while (filled < length && (count = read(file, into + filled, length - filled)) != 0) {
        if (count < 0) fail("a file can't be read");
        filled += (size_t)count;
    }
    return filled;
}

// Sends the blocks of a source, and says how many there are.
static uint32_t send_source(struct blind *blind, const char *path, uint64_t *bytes_sent) {
    size_t most = blind->code.rate * ROW - COUNT;
    size_t length = READ_AT_ONCE / most * most;
    uint8_t *bytes = room(length, 1);
    uint32_t generation = 0;
    int file = open(path, O_RDONLY);
    if (file < 0) fail("a file can't be read");
    size_t filled = length;
    while (filled == length) {
        filled = fill(file, bytes, length);
        *bytes_sent += filled;
        for (size_t at = 0; filled == length ? at < filled : at <= filled; at += most) {
            send_block(blind, bytes + at, filled - at < most ? filled - at : most, generation++);
        }
    }
    return generation;
}

static int run_blind(char **words, int count) {
    static struct blind blind;
    struct code *code = &blind.code;
    unsigned whole = 0;
    uint64_t bytes = 0;
    take_failed(code, read_file(words[0]), words + 3, count - 3);
    fill_products(code->field);
    blind.vectors = room(code->link_count, code->rate);
    blind.rows = room(code->link_count, ROW);
    blind.tables = room(code->link_count, sizeof *blind.tables);
    blind.block = room(code->rate, ROW);
    blind.decoded = room(code->rate, ROW);
    blind.receivers = room(code->sink_count, sizeof *blind.receivers);
    if (posix_memalign((void **)&blind.spans, 64, PIECES * sizeof *blind.spans) != 0) fail("there is no memory");
    for (unsigned link = 0; link < code->link_count; link++) open_link(&blind, link);
    for (unsigned place = 0; place < code->sink_count; place++) open_receiver(&blind, place, words[2]);
    uint32_t generations = send_source(&blind, words[1], &bytes);
    for (unsigned place = 0; place < code->sink_count; place++) {
        const struct receiver *receiver = &blind.receivers[place];
        whole += receiver->file >= 0;
        printf("%s rank %u%s\n", code->names[receiver->node], receiver->rank, receiver->file >= 0 ? " whole" : "");
    }
    printf("sent %" PRIu64 " bytes in %" PRIu32 " generations to %u sinks\n", bytes, generations, whole);
    return 0;
}

// Writes the frames of as many links as rows, each with the powers of an element of its own, and payloads that follow by a recursion.
static int write_heads(unsigned field, unsigned rate) {
    uint8_t frame[MOST_FRAME];
    uint64_t state = rate;
    for (unsigned link = 0; link < rate; link++) {
        uint8_t vector[MOST_RATE] = {1};
        for (unsigned row = 1; row < rate; row++) vector[row] = product(field, vector[row - 1], (uint8_t)(link + 1));
        for (unsigned piece = 0; piece < PIECES; piece++) {
            uint8_t payload[PIECE];
            for (unsigned at = 0; at < PIECE; at += 4) {
                state = state * 6364136223846793005u + 1442695040888963407u;
                put_number(payload + at, (uint32_t)(state >> 32));
            }
            write_frame(frame, link, 0, piece, vector, rate, payload);
            if (fwrite(frame, FRAME + rate, 1, stdout) != 1) fail("a write failed");
        }
    }
    return fflush(stdout) == 0 ? 0 : 1;
}

static uint64_t now(void) {
    struct timespec time;
    clock_gettime(CLOCK_MONOTONIC, &time);
    return (uint64_t)time.tv_sec * 1000000000 + (uint64_t)time.tv_nsec;
}

static int feed(unsigned field, unsigned rate, unsigned rounds) {
    static uint8_t frames[MOST_RATE * PIECES * MOST_FRAME];
    static uint8_t block[MOST_RATE * ROW];
    static struct span spans[PIECES] __attribute__((aligned(64)));
    size_t length = FRAME + rate;
    size_t count = fread(frames, 1, sizeof frames, stdin) / length;
    uint32_t sum = 0;
    uint64_t taken = 0;
    fill_products(field);
    uint64_t start = now();
    for (unsigned round = 0; round < rounds; round++) {
        clear(spans);
        for (size_t place = 0; place < count; place++) accept(spans, rate, frames + place * length, length);
        taken += count;
        if (!is_whole(spans, rate)) fail("the frames give no block");
        write_block(spans, rate, block);
        for (unsigned row = 0; row < rate; row++) sum = sum * 31 + block[row * ROW] + block[row * ROW + ROW - 1];
    }
    printf("%" PRIu64 " %" PRIu64 " %" PRIu32 "\n", now() - start, taken, sum);
    return 0;
}

static unsigned number(const char *word) {
    return (unsigned)strtoul(word, NULL, 10);
}

int main(int count, char **words) {
    if (count >= 5 && strcmp(words[1], "blind") == 0) return run_blind(words + 2, count - 2);
    if (count == 4 && strcmp(words[1], "heads") == 0) return write_heads(number(words[2]), number(words[3]));
    if (count == 5 && strcmp(words[1], "feed") == 0) return feed(number(words[2]), number(words[3]), number(words[4]));
    fprintf(stderr, "usage: blind blind CODE SRC PREFIX LINK .. | heads FIELD RATE | feed FIELD RATE ROUNDS\n");
    return 2;
}
