// Feeds one node or one sink of a code with frames, over and over, and does with ISA-L what they do. The first word says
// which, the second is the number of links out of the node, or the rate of the sink, and the third the number of rounds.
// Prints the nanoseconds that it took, the number of frames, and a checksum: of a node that of each byte of the frames that
// one more round writes, of which the time isn't taken.
//
// The codes are those that bench/codes.c writes: `node`, of which two links lead into the node, and `fan`, of which the
// links into the sink carry what the middle nodes got. In a round come all pieces of four generations, as packets in a
// list. Of each the place of its link is looked up, and one whose link doesn't lead in, or whose numbers are too high, is
// left alone. The node keeps a piece of a link until that of the other one came; then it makes the payloads of all links
// out by one call of the library, each in its frame. The sink keeps the pieces as rows, and makes the blocks by one call
// for each.
#include "frame.h"

#include <isa-l/erasure_code.h>
#include <stdbool.h>
#include <stdint.h>
#include <stdio.h>
#include <stdlib.h>
#include <string.h>
#include <time.h>

enum { GENERATIONS = 4, INS = 2, MOST_OUTS = 1024, MOST_RATE = 32, MOST_LINKS = 8192, MOST_PACKETS = GENERATIONS * PIECES * MOST_RATE };

struct packet {
    uint32_t link;
    uint32_t generation;
    uint8_t piece;
    uint8_t payload[PIECE];
};

// For each link its place among those that lead in, or -1.
struct places {
    int16_t of[MOST_LINKS];
};

struct tally {
    uint64_t frames;
    uint32_t sum;
};

static void fail(const char *what) {
    fprintf(stderr, "frames: %s\n", what);
    exit(1);
}

static uint64_t now(void) {
    struct timespec time;
    clock_gettime(CLOCK_MONOTONIC, &time);
    return (uint64_t)time.tv_sec * 1000000000 + (uint64_t)time.tv_nsec;
}

static uint8_t power(uint8_t element, unsigned exponent) {
    uint8_t result = 1;
    while (exponent-- > 0) result = gf_mul(result, element);
    return result;
}

// The payload of a piece: the same in each generation.
static void fill_payload(uint8_t *payload, unsigned in, unsigned piece) {
    for (unsigned place = 0; place < PIECE; place++) payload[place] = (uint8_t)(place * 7 + piece * 31 + in * 97 + 1);
}

// Fills in the places of so many links from a first one on.
static void fill_places(struct places *places, unsigned first, unsigned ins) {
    memset(places, -1, sizeof *places);
    for (unsigned in = 0; in < ins; in++) places->of[first + in] = (int16_t)in;
}

// The packets of a round, in which so many links from a first one on lead in.
static int fill_packets(struct packet *packets, unsigned first, unsigned ins) {
    struct packet *next = packets;
    for (uint32_t generation = 0; generation < GENERATIONS; generation++) {
        for (unsigned piece = 0; piece < PIECES; piece++) {
            for (unsigned in = 0; in < ins; in++) {
                *next = (struct packet){first + in, generation, (uint8_t)piece, {0}};
                fill_payload(next->payload, in, piece);
                next++;
            }
        }
    }
    return (int)(next - packets);
}

// The place of a packet's link, or -1 where the packet isn't one to take in.
static int place_of(const struct places *places, const struct packet *packet) {
    if (packet->link >= MOST_LINKS || packet->generation >= GENERATIONS || packet->piece >= PIECES) return -1;
    return places->of[packet->link];
}

static void add(struct tally *tally, unsigned number) {
    tally->sum = tally->sum * 31 + number;
}

struct node {
    int outs;
    struct places places;
    uint8_t *tables;
    uint8_t *frames;
    uint8_t *into[MOST_OUTS];
    uint8_t held[GENERATIONS][INS][ROW];
    uint8_t has[GENERATIONS][INS][PIECES];
};

static void start_node(struct node *node, int outs) {
    uint8_t *matrix = malloc((size_t)outs * INS);
    node->outs = outs;
    fill_places(&node->places, 0, INS);
    node->tables = malloc((size_t)outs * INS * 32);
    node->frames = malloc((size_t)outs * FRAME);
    for (int out = 0; out < outs; out++) {
        matrix[out * INS] = 1;
        matrix[out * INS + 1] = power(2, (unsigned)out % 255);
        node->into[out] = node->frames + (size_t)out * FRAME + HEAD;
    }
    ec_init_tables(INS, outs, matrix, node->tables);
    free(matrix);
}

// Writes the frames of all links out, each to its place. Says how many there are.
static int give(struct node *node, uint32_t generation, unsigned piece) {
    uint8_t *from[INS] = {node->held[generation][0] + piece * PIECE, node->held[generation][1] + piece * PIECE};
    ec_encode_data(PIECE, INS, node->outs, node->tables, from, node->into);
    for (int out = 0; out < node->outs; out++) put_head(node->frames + (size_t)out * FRAME, (uint32_t)(INS + out), generation, piece);
    return node->outs;
}

static int take(struct node *node, const struct packet *packet) {
    int in = place_of(&node->places, packet);
    if (in < 0) return 0;
    uint8_t(*has)[PIECES] = node->has[packet->generation];
    if (has[in][packet->piece]) return 0;
    has[in][packet->piece] = 1;
    memcpy(node->held[packet->generation][in] + packet->piece * PIECE, packet->payload, PIECE);
    return has[1 - in][packet->piece] ? give(node, packet->generation, packet->piece) : 0;
}

// Adds up the bytes of the first frames.
static void look(const struct node *node, int frames, struct tally *tally) {
    for (size_t place = 0; place < (size_t)frames * FRAME; place++) add(tally, node->frames[place]);
}

// In a round whose time is taken frames are counted, and in the other one their bytes are added up.
static void node_round(struct node *node, const struct packet *packets, int count, bool timed, struct tally *tally) {
    memset(node->has, 0, sizeof node->has);
    for (int number = 0; number < count; number++) {
        int given = take(node, packets + number);
        if (timed) tally->frames += (uint64_t)given;
        else look(node, given, tally);
    }
}

struct sink {
    int rate;
    struct places places;
    uint8_t *tables;
    uint8_t held[GENERATIONS][MOST_RATE][ROW];
    uint8_t has[GENERATIONS][MOST_RATE][PIECES];
    uint8_t block[MOST_RATE * ROW];
};

static void start_sink(struct sink *sink, int rate) {
    uint8_t vectors[MOST_RATE * MOST_RATE];
    uint8_t decoder[MOST_RATE * MOST_RATE];
    for (int link = 0; link < rate; link++) {
        uint8_t own = power(2, 1 + (unsigned)link);
        for (int row = 0; row < rate; row++) vectors[link * rate + row] = power(own, 1 + (unsigned)row);
    }
    if (gf_invert_matrix(vectors, decoder, rate) != 0) fail("no decoder");
    sink->rate = rate;
    fill_places(&sink->places, (unsigned)rate, (unsigned)rate);
    sink->tables = malloc((size_t)rate * (size_t)rate * 32);
    ec_init_tables(rate, rate, decoder, sink->tables);
}

static void decode(struct sink *sink, uint32_t generation, struct tally *tally) {
    uint8_t *from[MOST_RATE];
    uint8_t *into[MOST_RATE];
    for (int row = 0; row < sink->rate; row++) {
        from[row] = sink->held[generation][row];
        into[row] = sink->block + (size_t)row * ROW;
    }
    ec_encode_data(ROW, sink->rate, sink->rate, sink->tables, from, into);
    for (int row = 0; row < sink->rate; row++) add(tally, into[row][0] + into[row][ROW - 1]);
}

static void keep(struct sink *sink, const struct packet *packet, struct tally *tally) {
    int in = place_of(&sink->places, packet);
    if (in < 0) return;
    tally->frames++;
    uint8_t *has = &sink->has[packet->generation][in][packet->piece];
    if (*has) return;
    *has = 1;
    memcpy(sink->held[packet->generation][in] + packet->piece * PIECE, packet->payload, PIECE);
}

static void sink_round(struct sink *sink, const struct packet *packets, int count, struct tally *tally) {
    memset(sink->has, 0, sizeof sink->has);
    for (int number = 0; number < count; number++) keep(sink, packets + number, tally);
    for (uint32_t generation = 0; generation < GENERATIONS; generation++) decode(sink, generation, tally);
}

static uint64_t run_node(int outs, unsigned long rounds, struct tally *tally) {
    static struct node node;
    static struct packet packets[MOST_PACKETS];
    if (outs < 1 || outs > MOST_OUTS) fail("too many links");
    start_node(&node, outs);
    int count = fill_packets(packets, 0, INS);
    uint64_t start = now();
    for (unsigned long round = 0; round < rounds; round++) node_round(&node, packets, count, true, tally);
    uint64_t elapsed = now() - start;
    node_round(&node, packets, count, false, tally);
    return elapsed;
}

static uint64_t run_sink(int rate, unsigned long rounds, struct tally *tally) {
    static struct sink sink;
    static struct packet packets[MOST_PACKETS];
    if (rate < 1 || rate > MOST_RATE) fail("no such rate");
    start_sink(&sink, rate);
    int count = fill_packets(packets, (unsigned)rate, (unsigned)rate);
    uint64_t start = now();
    for (unsigned long round = 0; round < rounds; round++) sink_round(&sink, packets, count, tally);
    return now() - start;
}

int main(int count, char **words) {
    struct tally tally = {0, 0};
    if (count != 4) fail("usage: frames node|sink NUMBER ROUNDS");
    int number = atoi(words[2]);
    unsigned long rounds = strtoul(words[3], NULL, 10);
    uint64_t elapsed = strcmp(words[1], "node") == 0 ? run_node(number, rounds, &tally) : run_sink(number, rounds, &tally);
    printf("%llu %llu %u\n", (unsigned long long)elapsed, (unsigned long long)tally.frames, tally.sum);
    return 0;
}
