// Reads a code file of docs/FORMATS.md, of either version, under one of its patterns. The code is taken as it stands: nothing
// is checked but that the bytes are all there, and that no number is above the limits of the format.
//
// A link is live where it doesn't fail, and an operand of it is a row of the source or a live link. Of a live link's
// operands those are kept which are rows or live links, and of a link that isn't live none.
#ifndef CODE_FILE_H
#define CODE_FILE_H

#include <fcntl.h>
#include <stdbool.h>
#include <stdint.h>
#include <stdio.h>
#include <stdlib.h>
#include <string.h>
#include <unistd.h>

enum { CODE_MARK = 0x4C494643, DRAFT_MARK = 0x4C49464B };
enum { READ_AT_ONCE = 65536, MOST_RATE = 32, MOST_NODES = 4096, MOST_LINKS = 8192, MOST_OPERANDS = 8192 };

struct bytes {
    uint8_t *at;
    size_t length;
};

struct operand {
    unsigned from;
    unsigned times;
};

struct link {
    char *name;
    unsigned tail;
    unsigned head;
    bool has_failed;
    bool is_live;
    unsigned count;
    struct operand *operands;
};

// A sink, and its decoder under the pattern: as many links as the rate, and a square matrix row by row.
struct sink {
    unsigned node;
    unsigned *links;
    unsigned *entries;
};

struct code {
    unsigned version;
    unsigned field;
    unsigned rate;
    unsigned source;
    unsigned node_count;
    unsigned link_count;
    unsigned sink_count;
    unsigned pattern_count;
    unsigned pattern;
    char **names;
    struct link *links;
    struct sink *sinks;
};

static void fail(const char *what) {
    fprintf(stderr, "failed: %s\n", what);
    exit(1);
}

static void *room(size_t count, size_t size) {
    void *bytes = calloc(count + 1, size);
    if (!bytes) fail("there is no memory");
    return bytes;
}

// Reads a file whole, 65,536 bytes at a time.
static struct bytes read_file(const char *path) {
    int file = open(path, O_RDONLY);
    off_t length = lseek(file, 0, SEEK_END);
    if (length < 0 || lseek(file, 0, SEEK_SET) < 0) fail("a file can't be read");
    struct bytes bytes = {room((size_t)length + READ_AT_ONCE, 1), 0};
    ssize_t count;
    while ((count = read(file, bytes.at + bytes.length, READ_AT_ONCE)) > 0) bytes.length += (size_t)count;
    if (count < 0 || close(file) != 0) fail("a file can't be read");
    return bytes;
}

static void skip(struct bytes *rest, size_t size) {
    if (rest->length < size) fail("the code file is too short");
    rest->at += size;
    rest->length -= size;
}

static unsigned take(struct bytes *rest, unsigned size) {
    const uint8_t *at = rest->at;
    unsigned number = 0;
    skip(rest, size);
    for (unsigned place = 0; place < size; place++) number = number << 8 | at[place];
    return number;
}

// A number that is below a bound, or else the file is refused.
static unsigned take_below(struct bytes *rest, unsigned size, unsigned bound) {
    unsigned number = take(rest, size);
    if (number >= bound) fail("a number of the code file is too great");
    return number;
}

static char *take_name(struct bytes *rest) {
    unsigned length = take(rest, 1);
    const uint8_t *at = rest->at;
    skip(rest, length);
    return memcpy(room(length, 1), at, length);
}

static bool is_field(const struct code *code) {
    return code->field == 8 || code->field == 16 || (code->field == 9 && code->version == 2);
}

// The bytes of an element.
static unsigned width_of(const struct code *code) {
    return code->field == 16 ? 2 : 1;
}

static void take_front(struct code *code, struct bytes *rest, unsigned mark) {
    if (take(rest, 4) != mark) fail("a file has another mark");
    code->version = take(rest, 1);
    if (code->version != 2 && (code->version != 1 || mark == DRAFT_MARK)) fail("a file has another version");
    code->field = take(rest, 1);
    code->rate = take_below(rest, 1, MOST_RATE + 1);
    if (!is_field(code) || code->rate == 0) fail("there is no such field or rate");
    code->node_count = take_below(rest, 2, MOST_NODES + 1);
    code->names = room(code->node_count, sizeof *code->names);
    for (unsigned node = 0; node < code->node_count; node++) code->names[node] = take_name(rest);
}

static void take_links(struct code *code, struct bytes *rest) {
    code->link_count = take_below(rest, 2, MOST_LINKS + 1);
    code->links = room(code->link_count, sizeof *code->links);
    for (unsigned link = 0; link < code->link_count; link++) {
        code->links[link].name = take_name(rest);
        code->links[link].tail = take_below(rest, 2, code->node_count);
        code->links[link].head = take_below(rest, 2, code->node_count);
    }
    code->source = take_below(rest, 2, code->node_count);
}

static void take_sinks(struct code *code, struct bytes *rest) {
    code->sink_count = take_below(rest, 2, MOST_NODES + 1);
    code->sinks = room(code->sink_count, sizeof *code->sinks);
    for (unsigned sink = 0; sink < code->sink_count; sink++) {
        code->sinks[sink].node = take_below(rest, 2, code->node_count);
    }
}

// Takes a pattern. Its links fail where it is the one that is named.
static bool take_pattern(struct code *code, struct bytes *rest, const char *named) {
    char *name = take_name(rest);
    bool is_named = strcmp(name, named) == 0;
    free(name);
    for (unsigned count = take(rest, 2); count > 0; count--) {
        unsigned link = take_below(rest, 2, code->link_count);
        if (is_named) code->links[link].has_failed = true;
    }
    return is_named;
}

static void take_patterns(struct code *code, struct bytes *rest, const char *named) {
    bool is_found = strcmp(named, "none") == 0;
    unsigned listed = take(rest, 2);
    code->pattern_count = listed + 1;
    for (unsigned pattern = 1; pattern <= listed; pattern++) {
        if (!take_pattern(code, rest, named)) continue;
        code->pattern = pattern;
        is_found = true;
    }
    if (!is_found) fail("there is no such pattern");
}

static bool is_live_operand(const struct code *code, const struct link *link, unsigned from) {
    return link->tail == code->source || code->links[from].is_live;
}

static void take_operands(struct code *code, struct bytes *rest, struct link *link) {
    unsigned count = take_below(rest, 2, MOST_OPERANDS + 1);
    unsigned bound = link->tail == code->source ? code->rate : code->link_count;
    link->operands = room(count, sizeof *link->operands);
    for (; count > 0; count--) {
        unsigned from = take_below(rest, 2, bound);
        unsigned times = take(rest, width_of(code));
        if (link->has_failed || !is_live_operand(code, link, from)) continue;
        link->operands[link->count++] = (struct operand){from, times};
    }
    link->is_live = link->count > 0;
}

// Where the decoder of each demand begins, sinks outside and patterns inside. In version 2 one that an earlier demand has is
// that demand's.
static const uint8_t **take_all_decoders(const struct code *code, struct bytes *rest) {
    size_t size = code->rate * 2 + (size_t)code->rate * code->rate * width_of(code);
    size_t count = (size_t)code->sink_count * code->pattern_count;
    const uint8_t **decoders = room(count, sizeof *decoders);
    for (size_t demand = 0; demand < count; demand++) {
        unsigned same = code->version == 1 ? 0 : take_below(rest, 4, (unsigned)demand + 1);
        decoders[demand] = same == 0 ? rest->at : decoders[same - 1];
        if (same == 0) skip(rest, size);
    }
    return decoders;
}

// Reads a decoder, of which the bytes are known to be there.
static void read_decoder(const struct code *code, const uint8_t *at, struct sink *sink) {
    unsigned entries = code->rate * code->rate;
    struct bytes rest = {(uint8_t *)at, 2 * code->rate + (size_t)entries * width_of(code)};
    sink->links = room(code->rate, sizeof *sink->links);
    sink->entries = room(entries, sizeof *sink->entries);
    for (unsigned place = 0; place < code->rate; place++) sink->links[place] = take_below(&rest, 2, code->link_count);
    for (unsigned place = 0; place < entries; place++) sink->entries[place] = take(&rest, width_of(code));
}

// Takes the decoders, and reads that of the pattern for each sink.
static void take_decoders(const struct code *code, struct bytes *rest) {
    const uint8_t **decoders = take_all_decoders(code, rest);
    for (unsigned sink = 0; sink < code->sink_count; sink++) {
        read_decoder(code, decoders[sink * code->pattern_count + code->pattern], &code->sinks[sink]);
    }
    free(decoders);
}

// Takes what stands before the operands. The links of the pattern that is named fail then.
static void take_named(struct code *code, struct bytes *rest, const char *pattern) {
    take_front(code, rest, CODE_MARK);
    take_links(code, rest);
    take_sinks(code, rest);
    take_patterns(code, rest, pattern);
}

// Takes the operands and the decoders, which are the end.
static void take_sums(struct code *code, struct bytes *rest) {
    for (unsigned link = 0; link < code->link_count; link++) take_operands(code, rest, &code->links[link]);
    take_decoders(code, rest);
    if (rest->length != 0) fail("the code file is too long");
}

static inline void take_code(struct code *code, struct bytes rest, const char *pattern) {
    take_named(code, &rest, pattern);
    take_sums(code, &rest);
}

#endif
