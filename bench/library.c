// Feeds one node or one sink of a code with frames by liblif, over and over. The code's file is read from standard input. The
// first word says which, the second is the number of the node or of the sink, and the third the number of rounds. In a round
// come all pieces of four generations on every link, as in frames.c, each as a frame that is given to one call; each frame that
// is due then is taken by one more. Prints what frames.c prints: the nanoseconds, the number of frames, and a checksum.
#include "frame.h"

#include <lif.h>
#include <stdbool.h>
#include <stdint.h>
#include <stdio.h>
#include <stdlib.h>
#include <string.h>
#include <time.h>

enum { GENERATIONS = 4, MOST_INS = 32, MOST_OUTS = 1024, MOST_FRAMES = GENERATIONS * PIECES * MOST_INS, MOST_BYTES = 1 << 20 };

struct tally {
    uint64_t frames;
    uint32_t sum;
};

// What comes in a round.
struct round {
    int count;
    uint8_t frames[MOST_FRAMES][FRAME];
};

static void fail(const char *what) {
    fprintf(stderr, "library: %s\n", what);
    exit(1);
}

static void see(uint32_t status) {
    if (status != LIF_OK) fail(lif_says(status));
}

static uint64_t now(void) {
    struct timespec time;
    clock_gettime(CLOCK_MONOTONIC, &time);
    return (uint64_t)time.tv_sec * 1000000000 + (uint64_t)time.tv_nsec;
}

static void add(struct tally *tally, unsigned number) {
    tally->sum = tally->sum * 31 + number;
}

// Fills in all that comes on these links, with the payloads of frames.c.
static void fill_round(struct round *round, const uint32_t *links, unsigned ins) {
    round->count = 0;
    for (uint32_t generation = 0; generation < GENERATIONS; generation++) {
        for (unsigned piece = 0; piece < PIECES; piece++) {
            for (unsigned in = 0; in < ins; in++) {
                uint8_t *frame = round->frames[round->count++];
                put_head(frame, links[in], generation, piece);
                for (unsigned place = 0; place < PIECE; place++) frame[HEAD + place] = (uint8_t)(place * 7 + piece * 31 + in * 97 + 1);
            }
        }
    }
}

// Takes in a frame, and takes all that are due, each to a place of its own. Says how many.
static int take(lif_node *node, const uint8_t *frame, uint8_t *into) {
    bool is_new;
    int given = 0;
    uint32_t status;
    see(lif_node_accept(node, frame, FRAME, &is_new));
    while ((status = lif_node_next(node, into + (size_t)given * FRAME, FRAME)) == LIF_OK) given++;
    if (status != LIF_NOTHING_DUE) see(status);
    return given;
}

// In a round whose time is taken frames are counted, and in the other one their bytes are added up.
static void node_round(lif_node *node, const struct round *round, bool timed, struct tally *tally) {
    static uint8_t into[(MOST_OUTS + 1) * FRAME];
    see(lif_node_begin(node, 0, GENERATIONS));
    for (int number = 0; number < round->count; number++) {
        int given = take(node, round->frames[number], into);
        if (timed) tally->frames += (uint64_t)given;
        else for (size_t place = 0; place < (size_t)given * FRAME; place++) add(tally, into[place]);
    }
}

static uint64_t run_node(lif_code *code, uint32_t number, unsigned long rounds, struct round *round, struct tally *tally) {
    lif_node node = {0};
    uint32_t links[MOST_INS], link, ins = 0;
    see(lif_node_open(&node, code, 0, number));
    while (ins < MOST_INS && lif_node_link_in(&node, ins, links + ins) == LIF_OK) ins++;
    if (lif_node_link_out(&node, MOST_OUTS, &link) != LIF_NO_LINK) fail("too many links");
    fill_round(round, links, ins);
    uint64_t start = now();
    for (unsigned long at = 0; at < rounds; at++) node_round(&node, round, true, tally);
    uint64_t elapsed = now() - start;
    node_round(&node, round, false, tally);
    see(lif_node_close(&node));
    return elapsed;
}

static void sink_round(lif_sink *sink, const struct round *round, uint32_t rate, struct tally *tally) {
    static uint8_t block[LIF_MOST_ROWS * ROW];
    bool is_new;
    see(lif_sink_begin(sink, 0, GENERATIONS));
    for (int number = 0; number < round->count; number++) see(lif_sink_accept(sink, round->frames[number], FRAME, &is_new));
    tally->frames += (uint64_t)round->count;
    for (uint32_t generation = 0; generation < GENERATIONS; generation++) {
        see(lif_sink_block(sink, generation, block, (size_t)rate * ROW));
        for (uint32_t row = 0; row < rate; row++) add(tally, block[row * ROW] + block[row * ROW + ROW - 1]);
    }
}

static uint64_t run_sink(lif_code *code, uint32_t number, unsigned long rounds, struct round *round, struct tally *tally) {
    lif_sink sink = {0};
    lif_shape shape;
    uint32_t links[MOST_INS], ins = 0;
    see(lif_code_shape(code, &shape));
    see(lif_sink_open(&sink, code, 0, number));
    for (uint32_t link = 0; link < shape.links; link++) {
        bool wants;
        see(lif_sink_wants(&sink, link, &wants));
        if (wants) links[ins++] = link;
    }
    fill_round(round, links, ins);
    uint64_t start = now();
    for (unsigned long at = 0; at < rounds; at++) sink_round(&sink, round, shape.rate, tally);
    uint64_t elapsed = now() - start;
    see(lif_sink_close(&sink));
    return elapsed;
}

int main(int count, char **words) {
    static uint8_t bytes[MOST_BYTES];
    static struct round round;
    struct tally tally = {0, 0};
    lif_code code = {0};
    lif_refusal why;
    if (count != 4) fail("usage: library node|sink NUMBER ROUNDS");
    see(lif_code_open(&code, bytes, fread(bytes, 1, sizeof bytes, stdin), &why));
    uint32_t number = (uint32_t)strtoul(words[2], NULL, 10);
    unsigned long rounds = strtoul(words[3], NULL, 10);
    bool is_node = strcmp(words[1], "node") == 0;
    uint64_t elapsed = (is_node ? run_node : run_sink)(&code, number, rounds, &round, &tally);
    see(lif_code_close(&code));
    printf("%llu %llu %u\n", (unsigned long long)elapsed, (unsigned long long)tally.frames, tally.sum);
    return 0;
}
