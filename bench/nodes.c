// Runs one node or one sink of a code over the files of its links, as `lif relay` and `lif sink` do, and makes the sums and the
// blocks by ISA-L: `relay` and `sink` with their words. It reads the same files whole, tests each frame for the same, keeps all
// payloads, and makes the same files by the same writes. Field 8 alone. `frames` takes the number of a link and one of
// generations, and writes a stream with payloads by chance; `turned` takes a file, and writes its frames from the last one on.
//
// A stream's payloads stand as rows, one for each generation, with a byte for each that says which pieces came. A frame of a
// generation that the file is too short for, were it whole, isn't kept, as is one that comes again. What a link carries of a
// piece is one call of the library for all links out, or a copy where a link has one operand with the coefficient one. A sink
// decodes the first octets of each block to see what it counts, before its file is made, and then all of it. The files are
// kept open. Nothing is checked of the code.
#include "code_file.h"
#include "frame.h"

#include <inttypes.h>
#include <isa-l/erasure_code.h>

enum { COUNT = 4, ALL_PIECES = 255, LEAST_LENGTH = 64 };

struct stream {
    uint32_t link;
    uint32_t generations;
    uint32_t most;
    uint8_t *rows;
    uint8_t *pieces;
};

// Sums of rows: of what comes in for each link out, or of a block's rows. `copied` has the one row that a sum is, or none.
struct sums {
    unsigned ins;
    unsigned outs;
    unsigned added;
    int *copied;
    unsigned *adding;
    uint8_t *tables;
};

struct node {
    struct code code;
    unsigned number;
    unsigned in_count;
    unsigned out_count;
    unsigned *ins;
    unsigned *outs;
    struct stream *streams;
    struct sums sums;
    uint8_t *frames;
    int *files;
    uint8_t **from;
    uint8_t **into;
};

static const uint8_t mark[] = {'L', 'F', 1};

// Keeps the payload of a frame, which must be one of the stream's.
static void keep(struct stream *stream, const uint8_t *frame) {
    if (memcmp(frame, mark, sizeof mark) != 0 || piece_of(frame) >= PIECES) fail("a frame is none");
    if (link_of(frame) != stream->link) fail("a frame is of another link");
    uint32_t generation = generation_of(frame);
    if (generation >= stream->most) fail("a piece is missing");
    uint8_t *at = stream->rows + (size_t)generation * ROW + piece_of(frame) * PIECE;
    uint8_t bit = (uint8_t)(1u << piece_of(frame));
    if (stream->pieces[generation] & bit) {
        if (memcmp(at, frame + HEAD, PIECE) != 0) fail("two frames contradict one another");
        return;
    }
    memcpy(at, frame + HEAD, PIECE);
    stream->pieces[generation] |= bit;
    if (generation >= stream->generations) stream->generations = generation + 1;
}

static struct stream read_stream(const char *prefix, const struct code *code, unsigned link) {
    char path[4096];
    snprintf(path, sizeof path, "%s.%s", prefix, code->links[link].name);
    struct bytes bytes = read_file(path);
    if (bytes.length % FRAME != 0) fail("a stream's length is none");
    uint32_t most = (uint32_t)(bytes.length / FRAME / PIECES + 1);
    struct stream stream = {link, 0, most, room(most, ROW), room(most, 1)};
    for (size_t at = 0; at < bytes.length; at += FRAME) keep(&stream, bytes.at + at);
    free(bytes.at);
    return stream;
}

// Reads the streams of all links in, which must be whole, and says how many generations they have.
static uint32_t read_streams(struct node *node, const char *prefix) {
    uint32_t generations = 1;
    node->streams = room(node->in_count, sizeof *node->streams);
    for (unsigned in = 0; in < node->in_count; in++) {
        node->streams[in] = read_stream(prefix, &node->code, node->ins[in]);
        if (node->streams[in].generations > generations) generations = node->streams[in].generations;
    }
    for (unsigned in = 0; in < node->in_count; in++) {
        const struct stream *stream = &node->streams[in];
        if (stream->generations < generations) fail("a stream is too short");
        for (uint32_t at = 0; at < generations; at++) {
            if (stream->pieces[at] != ALL_PIECES) fail("a piece is missing");
        }
    }
    return generations;
}

// The sums of which the entries stand sum by sum.
static struct sums new_sums(unsigned ins, unsigned outs, const uint8_t *entries) {
    struct sums sums = {ins, outs, 0, room(outs, sizeof(int)), room(outs, sizeof(unsigned)), NULL};
    uint8_t *matrix = room((size_t)ins * outs, 1);
    for (unsigned out = 0; out < outs; out++) {
        unsigned count = 0;
        for (unsigned in = 0; in < ins; in++) {
            if (entries[out * ins + in] == 0) continue;
            sums.copied[out] = entries[out * ins + in] == 1 ? (int)in : -1;
            count++;
        }
        if (count == 1 && sums.copied[out] >= 0) continue;
        sums.copied[out] = -1;
        memcpy(matrix + sums.added * ins, entries + out * ins, ins);
        sums.adding[sums.added++] = out;
    }
    sums.tables = room((size_t)ins * outs, 32);
    if (sums.added > 0) ec_init_tables((int)ins, (int)sums.added, matrix, sums.tables);
    free(matrix);
    return sums;
}

// Makes so many octets of each sum, of the rows that `from` points to, where `into` points to.
static void add_up(const struct node *node, unsigned length) {
    const struct sums *sums = &node->sums;
    uint8_t *added[MOST_LINKS];
    for (unsigned out = 0; out < sums->outs; out++) {
        if (sums->copied[out] >= 0) memcpy(node->into[out], node->from[sums->copied[out]], length);
    }
    if (sums->added == 0) return;
    for (unsigned place = 0; place < sums->added; place++) added[place] = node->into[sums->adding[place]];
    ec_encode_data((int)length, (int)sums->ins, (int)sums->added, sums->tables, node->from, added);
}

static unsigned node_named(const struct code *code, const char *name) {
    for (unsigned node = 0; node < code->node_count; node++) {
        if (strcmp(code->names[node], name) == 0) return node;
    }
    fail("there is no such node");
    return 0;
}

static void find_links(struct node *node) {
    const struct code *code = &node->code;
    node->ins = room(code->link_count, sizeof *node->ins);
    node->outs = room(code->link_count, sizeof *node->outs);
    for (unsigned link = 0; link < code->link_count; link++) {
        if (!code->links[link].is_live) continue;
        if (code->links[link].head == node->number) node->ins[node->in_count++] = link;
        if (code->links[link].tail == node->number) node->outs[node->out_count++] = link;
    }
}

// The place among the rows that a sum is over: of the source, or of the links in.
static unsigned place_of(const struct node *node, unsigned from) {
    if (node->number == node->code.source) return from;
    for (unsigned in = 0; in < node->in_count; in++) {
        if (node->ins[in] == from) return in;
    }
    fail("an operand doesn't lead in");
    return 0;
}

static struct sums sums_out(const struct node *node, unsigned ins) {
    uint8_t *entries = room((size_t)ins * node->out_count, 1);
    for (unsigned out = 0; out < node->out_count; out++) {
        const struct link *link = &node->code.links[node->outs[out]];
        for (unsigned place = 0; place < link->count; place++) {
            entries[out * ins + place_of(node, link->operands[place].from)] = (uint8_t)link->operands[place].times;
        }
    }
    return new_sums(ins, node->out_count, entries);
}

static int create(const char *path) {
    int file = open(path, O_WRONLY | O_CREAT | O_TRUNC | O_APPEND, 0666);
    if (file < 0) fail("a file can't be made");
    return file;
}

static void append(int file, const uint8_t *bytes, size_t length) {
    if (write(file, bytes, length) != (ssize_t)length) fail("a write failed");
}

static void open_outs(struct node *node, const char *prefix) {
    node->files = room(node->out_count, sizeof *node->files);
    node->frames = room((size_t)node->out_count * PIECES, FRAME);
    for (unsigned out = 0; out < node->out_count; out++) {
        char path[4096];
        snprintf(path, sizeof path, "%s.%s", prefix, node->code.links[node->outs[out]].name);
        node->files[out] = create(path);
    }
}

// Writes the frames of a generation, of the rows that are pointed to.
static void write_frames(struct node *node, uint8_t *const *rows, uint32_t generation) {
    for (unsigned piece = 0; piece < PIECES; piece++) {
        for (unsigned row = 0; row < node->sums.ins; row++) node->from[row] = rows[row] + piece * PIECE;
        for (unsigned out = 0; out < node->out_count; out++) {
            uint8_t *frame = node->frames + ((size_t)out * PIECES + piece) * FRAME;
            put_head(frame, node->outs[out], generation, piece);
            node->into[out] = frame + HEAD;
        }
        add_up(node, PIECE);
    }
    for (unsigned out = 0; out < node->out_count; out++) {
        append(node->files[out], node->frames + (size_t)out * PIECES * FRAME, PIECES * FRAME);
    }
}

static void pass(struct node *node, const char *prefix, const char *out) {
    uint32_t generations = read_streams(node, prefix);
    uint8_t **rows = room(node->in_count, sizeof *rows);
    node->sums = sums_out(node, node->in_count);
    open_outs(node, out);
    for (uint32_t generation = 0; generation < generations; generation++) {
        for (unsigned in = 0; in < node->in_count; in++) rows[in] = node->streams[in].rows + (size_t)generation * ROW;
        write_frames(node, rows, generation);
    }
}

// Reads on until so many bytes are there or the file ends.
static size_t fill(int file, uint8_t *into, size_t length) {
    size_t filled = 0;
    ssize_t count;
    while (filled < length && (count = read(file, into + filled, length - filled)) != 0) {
        if (count < 0) fail("a file can't be read");
        filled += (size_t)count;
    }
    return filled;
}

static void originate(struct node *node, const char *path, const char *out) {
    unsigned rate = node->code.rate;
    size_t most = rate * ROW - COUNT;
    size_t length = READ_AT_ONCE / most * most;
    uint8_t *bytes = room(length, 1);
    uint8_t *block = room(rate, ROW);
    uint8_t *rows[MOST_RATE];
    uint32_t generation = 0;
    int file = open(path, O_RDONLY);
    if (file < 0) fail("a file can't be read");
    for (unsigned row = 0; row < rate; row++) rows[row] = block + row * ROW;
    node->sums = sums_out(node, rate);
    open_outs(node, out);
    size_t filled = length;
    while (filled == length) {
        filled = fill(file, bytes, length);
        for (size_t at = 0; filled == length ? at < filled : at <= filled; at += most) {
            size_t count = filled - at < most ? filled - at : most;
            put_number(block, (uint32_t)count);
            memcpy(block + COUNT, bytes + at, count);
            memset(block + COUNT + count, 0, most - count);
            write_frames(node, rows, generation++);
        }
    }
}

static const struct sink *sink_at(const struct code *code, unsigned node) {
    for (unsigned sink = 0; sink < code->sink_count; sink++) {
        if (code->sinks[sink].node == node) return &code->sinks[sink];
    }
    fail("there is no such sink");
    return NULL;
}

// Decodes so many octets of each row of a generation's block.
static void decode(struct node *node, uint32_t generation, unsigned length) {
    for (unsigned in = 0; in < node->in_count; in++) node->from[in] = node->streams[in].rows + (size_t)generation * ROW;
    add_up(node, length);
}

static void gather(struct node *node, const char *prefix, const char *path) {
    const struct sink *sink = sink_at(&node->code, node->number);
    unsigned rate = node->code.rate;
    uint8_t *entries = room((size_t)rate * rate, 1);
    uint8_t *block = room(rate, ROW);
    size_t most = rate * ROW - COUNT;
    for (unsigned place = 0; place < rate * rate; place++) entries[place] = (uint8_t)sink->entries[place];
    for (unsigned row = 0; row < rate; row++) node->into[row] = block + row * ROW;
    node->ins = sink->links;
    node->in_count = rate;
    uint32_t generations = read_streams(node, prefix);
    node->sums = new_sums(rate, rate, entries);
    for (uint32_t generation = 0; generation < generations; generation++) {
        decode(node, generation, LEAST_LENGTH);
        bool is_last = generation + 1 == generations;
        if (is_last ? number_at(block) >= most : number_at(block) != most) fail("a block counts otherwise");
    }
    int file = create(path);
    for (uint32_t generation = 0; generation < generations; generation++) {
        decode(node, generation, ROW);
        if (number_at(block) != 0) append(file, block + COUNT, number_at(block));
    }
}

static int run_node(char **words) {
    static struct node node;
    bool is_sink = strcmp(words[0], "sink") == 0;
    take_code(&node.code, read_file(words[1]), words[2]);
    if (node.code.field != 8) fail("the code has another field");
    node.number = node_named(&node.code, words[3]);
    node.from = room(MOST_LINKS, sizeof *node.from);
    node.into = room(MOST_LINKS, sizeof *node.into);
    if (is_sink) {
        gather(&node, words[4], words[5]);
        return 0;
    }
    find_links(&node);
    if (node.number == node.code.source) {
        originate(&node, words[4], words[5]);
    } else {
        pass(&node, words[4], words[5]);
    }
    return 0;
}

// Writes frames whose payloads follow by a recursion.
static int write_stream(uint32_t link, uint32_t generations) {
    uint8_t frame[FRAME];
    uint64_t state = link + 1;
    for (uint64_t place = 0; place < (uint64_t)generations * PIECES; place++) {
        put_head(frame, link, (uint32_t)(place / PIECES), (unsigned)(place % PIECES));
        for (unsigned at = HEAD; at + 4 <= FRAME; at += 4) {
            state = state * 6364136223846793005u + 1442695040888963407u;
            put_number(frame + at, (uint32_t)(state >> 32));
        }
        if (fwrite(frame, FRAME, 1, stdout) != 1) fail("a write failed");
    }
    return fflush(stdout) == 0 ? 0 : 1;
}

static int write_turned(const char *path) {
    struct bytes bytes = read_file(path);
    for (size_t at = bytes.length; at >= FRAME; at -= FRAME) {
        if (fwrite(bytes.at + at - FRAME, FRAME, 1, stdout) != 1) fail("a write failed");
    }
    return fflush(stdout) == 0 ? 0 : 1;
}

int main(int count, char **words) {
    if (count == 7 && (strcmp(words[1], "relay") == 0 || strcmp(words[1], "sink") == 0)) return run_node(words + 1);
    if (count == 4 && strcmp(words[1], "frames") == 0) {
        return write_stream((uint32_t)strtoul(words[2], NULL, 10), (uint32_t)strtoul(words[3], NULL, 10));
    }
    if (count == 3 && strcmp(words[1], "turned") == 0) return write_turned(words[2]);
    fprintf(stderr, "usage: nodes relay CODE PATTERN NODE IN OUT | sink CODE PATTERN SINK IN DST | frames LINK GENERATIONS | "
                    "turned FILE\n");
    return 2;
}
