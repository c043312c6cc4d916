// What `calls.c` knows of codes, nodes and sinks: the facts that it reads, the products of the fields, and the model of what a
// handle holds. Of a handle the model knows the kind of what it holds, of which code, and each payload that came. The frames of
// a node and the blocks of a sink are sums of these, by products that are worked out here. What the library asks for of memory is
// counted, and one request may be refused.
#ifndef CALLS_MODEL_H
#define CALLS_MODEL_H

#include <lif.h>

#include "../bench/frame.h"

#include <stdio.h>
#include <stdlib.h>
#include <string.h>

enum { HANDLES = 14, MOST = LIF_MOST_GENERATIONS, MOST_BLOCK = LIF_MOST_ROWS * LIF_ROW, BEHIND = 64, CANARY = 0xA5 };

struct operand {
    uint32_t origin, times;
};

struct facts {
    uint8_t *bytes;
    size_t size;
    lif_shape shape;
    char (*node_names)[LIF_NAME + 1], (*link_names)[LIF_NAME + 1], (*pattern_names)[LIF_NAME + 1];
    uint32_t *tails, *heads, *sinks, *live;  // live: by pattern and link
    uint32_t *operand_counts;
    struct operand **operands;
    uint32_t *decoder_links, *entries;  // by demand
};

struct refused {
    uint8_t *bytes;
    size_t size;
    uint32_t status;
    lif_refusal why;
};

enum kind { NONE, CODE, NODE, SINK };

// What a handle holds. The inputs are the rows at the source, the live links into another node, or the links that a sink wants.
struct held {
    enum kind kind;
    const struct facts *code;
    uint32_t pattern, number, first, count;
    uint32_t inputs, outs;
    uint32_t *in, *out;
    bool is_source;
    uint8_t *payloads;  // by generation, input and piece
    bool *has, *given;
};

struct handle {
    union {
        lif_code code;
        lif_node node;
        lif_sink sink;
    } at;
    struct held held;
};

// What calls write, with bytes behind that none may write.
struct written {
    lif_shape shape;
    uint32_t one, two;
    size_t length;
    uint8_t name[LIF_NAME + BEHIND], frame[LIF_FRAME + BEHIND];
    bool flag;
};

static struct facts *codes;
static struct refused *refusals;
static uint32_t code_count, refusal_count;
static struct handle pool[HANDLES];
static struct written outs, wanted;
static lif_refusal why, wanted_why;
static uint8_t block[MOST_BLOCK + BEHIND], wanted_block[MOST_BLOCK + BEHIND];
static uint8_t products[2][256][256];
static uint64_t seed, calls, statuses[LIF_NOT_DECODING + 1];

static void fail(const char *what, const char *why_so) {
    fprintf(stderr, "calls: call %llu: %s: %s\n", (unsigned long long)calls, what, why_so);
    exit(1);
}

static uint64_t draw(void) {
    seed ^= seed << 13;
    seed ^= seed >> 7;
    seed ^= seed << 17;
    return seed * 0x2545F4914F6CDD1D >> 16;
}

static uint32_t below(uint32_t limit) {
    return (uint32_t)(draw() % limit);
}

static bool one_in(uint32_t count) {
    return below(count) == 0;
}

// Mostly a number below a limit.
static uint32_t near(uint32_t limit) {
    const uint32_t others[] = {limit, limit + 1, UINT32_MAX, (uint32_t)draw()};
    return limit > 0 && !one_in(8) ? below(limit) : others[below(4)];
}

static void fill(uint8_t *bytes, size_t size) {
    for (size_t place = 0; place < size; place++) bytes[place] = (uint8_t)draw();
}

// Memory: what the library asks for is counted, and one request may be refused.

void *__real_malloc(size_t size);
void *__real_realloc(void *old, size_t size);
void __real_free(void *at);

static bool is_in_call;
static uint64_t requests, refused_request;
static int64_t blocks_held;

static bool is_refused(void) {
    return is_in_call && ++requests == refused_request;
}

void *__wrap_malloc(size_t size) {
    if (is_refused()) return NULL;
    void *at = __real_malloc(size);
    if (is_in_call) blocks_held += at != NULL;
    return at;
}

void *__wrap_realloc(void *old, size_t size) {
    if (is_refused()) return NULL;
    void *at = __real_realloc(old, size);
    if (is_in_call) blocks_held += at != NULL && old == NULL;
    return at;
}

void __wrap_free(void *at) {
    if (is_in_call) blocks_held -= at != NULL;
    __real_free(at);
}

static void *room(size_t count, size_t size) {
    void *at = calloc(count + 1, size);
    if (!at) fail("the driver", "there is no memory");
    return at;
}

static void enter(void) {
    requests = 0;
    is_in_call = true;
}

static uint32_t leave(uint32_t status) {
    is_in_call = false;
    return status;
}

#define CALL(call) (enter(), leave(call))

static bool is_same_why(void) {
    return why.item == wanted_why.item && why.demand == wanted_why.demand && why.row == wanted_why.row &&
           why.column == wanted_why.column && why.found == wanted_why.found && why.at == wanted_why.at;
}

// Compares an answer and all that is written with what was to come.
static void expect(const char *call, uint32_t status, uint32_t due) {
    calls++;
    if (status != due) {
        fprintf(stderr, "calls: call %llu: %s: %u came, and not %u\n", (unsigned long long)calls, call, status, due);
        exit(1);
    }
    statuses[status]++;
    if (requests > 0 && !strstr(call, "open")) fail(call, "it asks for memory");
    if (memcmp(&outs, &wanted, sizeof outs) != 0) fail(call, "something else is written");
    if (!is_same_why()) fail(call, "another refusal is written");
}

static void expect_block(const char *call) {
    if (memcmp(block, wanted_block, sizeof block) != 0) fail(call, "another block is written");
}

static void expect_handle(const char *call, const struct handle *handle) {
    if (handle->at.code.is_open != (handle->held.kind != NONE)) fail(call, "the handle is another one");
}

// The facts.

static uint32_t number(FILE *file) {
    uint32_t read;
    if (fscanf(file, "%u", &read) != 1) fail("the driver", "the facts end too early");
    return read;
}

static uint32_t *numbers(FILE *file, size_t count) {
    uint32_t *read = room(count, sizeof *read);
    for (size_t place = 0; place < count; place++) read[place] = number(file);
    return read;
}

static uint8_t *bytes_of(FILE *file, size_t *size) {
    *size = number(file);
    uint8_t *bytes = room(*size, 1);
    for (size_t place = 0; place < *size; place++) {
        unsigned byte;
        if (fscanf(file, "%2x", &byte) != 1) fail("the driver", "the facts end too early");
        bytes[place] = (uint8_t)byte;
    }
    return bytes;
}

static void *names(FILE *file, uint32_t count) {
    char(*read)[LIF_NAME + 1] = room(count, sizeof *read);
    for (uint32_t place = 0; place < count; place++) {
        if (fscanf(file, "%32s", read[place]) != 1) fail("the driver", "the facts end too early");
    }
    return read;
}

static void read_facts(FILE *file, struct facts *code) {
    code->bytes = bytes_of(file, &code->size);
    lif_shape *shape = &code->shape;
    uint32_t *fields[] = {&shape->rate, &shape->field, &shape->source, &shape->nodes, &shape->links, &shape->sinks, &shape->patterns};
    for (size_t place = 0; place < sizeof fields / sizeof *fields; place++) *fields[place] = number(file);
    shape->capacity = shape->rate * LIF_ROW - 4;
    code->node_names = names(file, shape->nodes);
    code->link_names = names(file, shape->links);
    code->pattern_names = names(file, shape->patterns);
    code->tails = numbers(file, shape->links);
    code->heads = numbers(file, shape->links);
    code->sinks = numbers(file, shape->sinks);
    code->live = numbers(file, (size_t)shape->patterns * shape->links);
    code->operand_counts = numbers(file, shape->links);
    code->operands = room(shape->links, sizeof *code->operands);
    for (uint32_t link = 0; link < shape->links; link++) {
        code->operands[link] = room(code->operand_counts[link], sizeof(struct operand));
        for (uint32_t place = 0; place < code->operand_counts[link]; place++) {
            code->operands[link][place].origin = number(file);
            code->operands[link][place].times = number(file);
        }
    }
    size_t demands = (size_t)shape->sinks * shape->patterns;
    code->decoder_links = numbers(file, demands * shape->rate);
    code->entries = numbers(file, demands * shape->rate * shape->rate);
}

static void drop_facts(struct facts *code) {
    for (uint32_t link = 0; link < code->shape.links; link++) free(code->operands[link]);
    void *parts[] = {code->bytes, code->node_names, code->link_names, code->pattern_names, code->tails, code->heads, code->sinks,
                     code->live, code->operand_counts, code->operands, code->decoder_links, code->entries};
    for (size_t place = 0; place < sizeof parts / sizeof *parts; place++) free(parts[place]);
}

static void read_refused(FILE *file, struct refused *refused) {
    refused->bytes = bytes_of(file, &refused->size);
    refused->status = number(file);
    lif_refusal *told = &refused->why;
    uint32_t *fields[] = {&told->item, &told->demand, &told->row, &told->column, &told->found};
    for (size_t place = 0; place < sizeof fields / sizeof *fields; place++) *fields[place] = number(file);
    told->at = number(file);
}

static void read_all(const char *path) {
    FILE *file = fopen(path, "r");
    if (!file) fail("the driver", "the facts can't be read");
    code_count = number(file);
    codes = room(code_count, sizeof *codes);
    for (uint32_t place = 0; place < code_count; place++) read_facts(file, codes + place);
    refusal_count = number(file);
    refusals = room(refusal_count, sizeof *refusals);
    for (uint32_t place = 0; place < refusal_count; place++) read_refused(file, refusals + place);
    fclose(file);
}

// Products and sums.

static uint8_t shifted_product(unsigned one, unsigned two, unsigned modulus) {
    unsigned product = 0;
    for (; two != 0; two >>= 1) {
        if (two & 1) product ^= one;
        one <<= 1;
        if (one & 0x100) one ^= modulus;
    }
    return (uint8_t)product;
}

static void fill_products(void) {
    for (unsigned one = 0; one < 256; one++) {
        for (unsigned two = 0; two < 256; two++) {
            products[0][one][two] = shifted_product(one, two, 0x11D);
            products[1][one][two] = shifted_product(one, two, 0x11B);
        }
    }
}

// The product of pairs low + high * y, where y * y = y + 0x20.
static uint32_t pair_product(uint32_t one, uint32_t two) {
    const uint8_t(*octets)[256] = products[0];
    uint8_t low = octets[one & 255][two & 255], high = octets[one >> 8][two >> 8];
    uint8_t mixed = octets[one & 255][two >> 8] ^ octets[one >> 8][two & 255];
    return (uint32_t)(high ^ mixed) << 8 | (low ^ octets[high][0x20]);
}

static void add_scaled(uint32_t field, uint32_t times, const uint8_t *from, uint8_t *to) {
    if (field == 16) {
        for (size_t place = 0; place < PIECE; place += 2) {
            uint32_t product = pair_product(times, (uint32_t)from[place] << 8 | from[place + 1]);
            to[place] ^= (uint8_t)(product >> 8);
            to[place + 1] ^= (uint8_t)product;
        }
        return;
    }
    for (size_t place = 0; place < PIECE; place++) to[place] ^= products[field == 9][times][from[place]];
}

// The model of a node or a sink.

static bool is_live(const struct held *held, uint32_t link) {
    return held->code->live[held->pattern * held->code->shape.links + link];
}

static size_t input_at(const struct held *held, uint32_t slot, uint32_t input, uint32_t piece) {
    return ((size_t)slot * held->inputs + input) * PIECES + piece;
}

static size_t out_at(const struct held *held, uint32_t slot, uint32_t out, uint32_t piece) {
    return ((size_t)slot * held->outs + out) * PIECES + piece;
}

static bool is_begun(const struct held *held, uint32_t generation) {
    return generation >= held->first && generation - held->first < held->count;
}

// The place of a link among the inputs, or their number.
static uint32_t place_of(const struct held *held, uint32_t link) {
    uint32_t place = 0;
    while (place < held->inputs && held->in[place] != link) place++;
    return place;
}

static void forget(struct held *held) {
    memset(held->has, 0, (size_t)MOST * held->inputs * PIECES * sizeof *held->has);
    memset(held->given, 0, (size_t)MOST * held->outs * PIECES * sizeof *held->given);
}

static void give_rooms(struct held *held) {
    held->has = room((size_t)MOST * held->inputs * PIECES, sizeof *held->has);
    held->given = room((size_t)MOST * held->outs * PIECES, sizeof *held->given);
    held->payloads = room((size_t)MOST * held->inputs * PIECES, PIECE);
}

static void hold_node(struct held *held, const struct facts *code, uint32_t pattern, uint32_t node) {
    uint32_t links = code->shape.links;
    *held = (struct held){.kind = NODE, .code = code, .pattern = pattern, .number = node, .is_source = node == code->shape.source};
    held->in = room(links + code->shape.rate, sizeof *held->in);
    held->out = room(links, sizeof *held->out);
    for (uint32_t link = 0; link < links; link++) {
        if (is_live(held, link) && code->heads[link] == node) held->in[held->inputs++] = link;
        if (is_live(held, link) && code->tails[link] == node) held->out[held->outs++] = link;
    }
    if (held->is_source) {
        for (held->inputs = 0; held->inputs < code->shape.rate; held->inputs++) held->in[held->inputs] = held->inputs;
    }
    give_rooms(held);
}

static void hold_sink(struct held *held, const struct facts *code, uint32_t pattern, uint32_t sink) {
    *held = (struct held){.kind = SINK, .code = code, .pattern = pattern, .number = sink, .inputs = code->shape.rate};
    size_t demand = (size_t)sink * code->shape.patterns + pattern;
    held->in = room(held->inputs, sizeof *held->in);
    memcpy(held->in, code->decoder_links + demand * held->inputs, held->inputs * sizeof *held->in);
    held->out = room(0, 1);
    give_rooms(held);
}

static void let_go(struct held *held) {
    void *parts[] = {held->in, held->out, held->payloads, held->has, held->given};
    for (size_t place = 0; place < sizeof parts / sizeof *parts; place++) free(parts[place]);
    *held = (struct held){0};
}

static bool is_due(const struct held *held, uint32_t slot, uint32_t out, uint32_t piece) {
    uint32_t link = held->out[out];
    if (held->given[out_at(held, slot, out, piece)]) return false;
    for (uint32_t number = 0; number < held->code->operand_counts[link]; number++) {
        uint32_t place = place_of(held, held->code->operands[link][number].origin);
        if (place < held->inputs && !held->has[input_at(held, slot, place, piece)]) return false;
    }
    return true;
}

// Makes the frame of the least that is due, and notes that it is given. Answers whether there is any.
static bool next_due(struct held *held, uint8_t *frame) {
    for (uint32_t slot = 0; slot < held->count; slot++) {
        for (uint32_t at = 0; at < held->outs * PIECES; at++) {
            uint32_t out = at / PIECES, piece = at % PIECES, link = held->out[out];
            if (!is_due(held, slot, out, piece)) continue;
            put_head(frame, link, held->first + slot, piece);
            memset(frame + HEAD, 0, PIECE);
            for (uint32_t number = 0; number < held->code->operand_counts[link]; number++) {
                struct operand operand = held->code->operands[link][number];
                uint32_t place = place_of(held, operand.origin);
                if (place == held->inputs) continue;
                const uint8_t *payload = held->payloads + input_at(held, slot, place, piece) * PIECE;
                add_scaled(held->code->shape.field, operand.times, payload, frame + HEAD);
            }
            held->given[out_at(held, slot, out, piece)] = true;
            return true;
        }
    }
    return false;
}

static bool is_whole(const struct held *held, uint32_t slot) {
    for (uint32_t at = 0; at < held->inputs * PIECES; at++) {
        if (!held->has[(size_t)slot * held->inputs * PIECES + at]) return false;
    }
    return true;
}

static void decode(const struct held *held, uint32_t slot, uint8_t *into) {
    uint32_t rate = held->code->shape.rate;
    const uint32_t *entries = held->code->entries + ((size_t)held->number * held->code->shape.patterns + held->pattern) * rate * rate;
    memset(into, 0, (size_t)rate * LIF_ROW);
    for (uint32_t at = 0; at < rate * rate * PIECES; at++) {
        uint32_t piece = at % PIECES, column = at / PIECES % rate, row = at / PIECES / rate;
        add_scaled(held->code->shape.field, entries[row * rate + column], held->payloads + input_at(held, slot, column, piece) * PIECE,
                   into + (size_t)row * LIF_ROW + piece * PIECE);
    }
}

static uint32_t frame_due(const struct held *held, const uint8_t *frame, size_t size) {
    if (size != LIF_FRAME) return LIF_BAD_LENGTH;
    if (memcmp(frame, "LF\1", 3) != 0 || frame[3] >= PIECES) return LIF_BAD_FRAME;
    if (held->is_source || place_of(held, link_of(frame)) == held->inputs) return LIF_OTHER_LINK;
    return is_begun(held, generation_of(frame)) ? LIF_OK : LIF_NOT_BEGUN;
}

// Notes a frame that is due. Answers whether it is new.
static bool take_frame(struct held *held, const uint8_t *frame) {
    size_t at = input_at(held, generation_of(frame) - held->first, place_of(held, link_of(frame)), piece_of(frame));
    if (held->has[at]) return false;
    held->has[at] = true;
    memcpy(held->payloads + at * PIECE, frame + HEAD, PIECE);
    return true;
}

#endif
