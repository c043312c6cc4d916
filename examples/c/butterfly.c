// Sends a file through a code: each node is a process, and each link a pair of sockets.
//
//     butterfly CODE SRC PREFIX SEED
//
// What the sink of the name NAME receives is written to PREFIX.NAME. A node takes in one window of generations after another,
// each in an order that SEED decides, and gives all that is due before it begins the next. The sockets of a link hold a window
// and more, so none waits for ever. The status is 0 where all went well.
#define _POSIX_C_SOURCE 200809L

#include <lif.h>

#include <stdio.h>
#include <stdlib.h>
#include <string.h>
#include <sys/socket.h>
#include <sys/wait.h>
#include <unistd.h>

enum { PIECES = 8, WINDOW = LIF_MOST_GENERATIONS, MOST_CODE = 1 << 20, MOST_BLOCK = LIF_MOST_ROWS * LIF_ROW };

typedef uint8_t frame[LIF_FRAME];

// The code, and of each link the socket that is read and the one that is written.
static lif_code code;
static lif_shape shape;
static size_t block_size;
static int (*sockets)[2];

// What a process has: its node, and perhaps a sink with its file.
static lif_node node;
static lif_sink sink;
static FILE *received;

static void fail(const char *why) {
    fprintf(stderr, "butterfly: %s\n", why);
    exit(EXIT_FAILURE);
}

static void must(uint32_t status) {
    if (status != LIF_OK) fail(lif_says(status));
}

static FILE *opened(const char *path, const char *mode) {
    FILE *file = fopen(path, mode);
    if (!file) fail(path);
    return file;
}

static void *room(size_t count, size_t size) {
    void *at = calloc(count, size);
    if (!at) fail(lif_says(LIF_NO_MEMORY));
    return at;
}

static void open_code(const char *path) {
    static uint8_t bytes[MOST_CODE];
    FILE *file = opened(path, "rb");
    size_t length = fread(bytes, 1, sizeof bytes, file);
    lif_refusal why;
    must(lif_code_open(&code, bytes, length, &why));
    must(lif_code_shape(&code, &shape));
    block_size = (size_t)shape.rate * LIF_ROW;
    fclose(file);
}

static void give_due(void) {
    frame due;
    while (lif_node_next(&node, due, sizeof due) == LIF_OK) {
        uint32_t link = (uint32_t)due[4] << 24 | (uint32_t)due[5] << 16 | (uint32_t)due[6] << 8 | due[7];
        if (write(sockets[link][1], due, sizeof due) != sizeof due) fail("a frame wasn't sent");
    }
}

static void run_source(const char *path) {
    static uint8_t piece[MOST_BLOCK], block[MOST_BLOCK];
    FILE *file = opened(path, "rb");
    size_t length = shape.capacity;
    for (uint32_t generation = 0; length == shape.capacity; generation++) {
        if (generation % WINDOW == 0) must(lif_node_begin(&node, generation, WINDOW));
        length = fread(piece, 1, shape.capacity, file);
        if (ferror(file)) fail(path);
        must(lif_cut(piece, length, block, block_size));
        must(lif_node_feed(&node, generation, block, block_size));
        give_due();
    }
    fclose(file);
}

// Reads a window of one link, or what is left. Answers how many frames that is.
static size_t read_window(uint32_t link, frame *frames) {
    size_t count = 0;
    while (count < WINDOW * PIECES && read(sockets[link][0], frames[count], LIF_FRAME) == LIF_FRAME) count++;
    return count;
}

static void shuffle(frame *frames, size_t count, uint64_t *random) {
    for (; count > 1; count--) {
        frame last;
        *random = *random * 6364136223846793005u + 1442695040888963407u;
        size_t place = (size_t)(*random >> 33) % count;
        memcpy(last, frames[count - 1], LIF_FRAME);
        memcpy(frames[count - 1], frames[place], LIF_FRAME);
        memcpy(frames[place], last, LIF_FRAME);
    }
}

static void take(frame *frames, size_t count) {
    bool is_new = false;
    for (size_t place = 0; place < count; place++) {
        must(lif_node_accept(&node, frames[place], LIF_FRAME, &is_new));
        uint32_t status = received ? lif_sink_accept(&sink, frames[place], LIF_FRAME, &is_new) : LIF_OK;
        if (status != LIF_OTHER_LINK) must(status);
    }
}

// Writes what the blocks of a window count. Answers whether the last block is among them.
static bool write_blocks(uint32_t first) {
    static uint8_t block[MOST_BLOCK];
    for (uint32_t generation = first; generation < first + WINDOW; generation++) {
        size_t length;
        must(lif_sink_block(&sink, generation, block, block_size));
        must(lif_count(block, block_size, &length));
        if (fwrite(block + 4, 1, length, received) != length) fail("a file wasn't written");
        if (length < shape.capacity) return true;
    }
    return false;
}

static void run_relay(uint64_t random) {
    uint32_t link, links = 0;
    while (lif_node_link_in(&node, links, &link) == LIF_OK) links++;
    frame *frames = room(links + 1, WINDOW * PIECES * sizeof(frame));
    bool is_last = false;
    for (uint32_t first = 0; !is_last; first += WINDOW) {
        size_t count = 0;
        for (uint32_t place = 0; lif_node_link_in(&node, place, &link) == LIF_OK; place++) count += read_window(link, frames + count);
        must(lif_node_begin(&node, first, WINDOW));
        if (received) must(lif_sink_begin(&sink, first, WINDOW));
        shuffle(frames, count, &random);
        take(frames, count);
        give_due();
        is_last = received ? write_blocks(first) : count < links * WINDOW * PIECES || count == 0;
    }
    free(frames);
}

// Opens the sink of a node, if it has one.
static void open_sink(uint32_t number, const char *prefix) {
    char path[4096], name[LIF_NAME + 1] = {0};
    size_t length;
    for (uint32_t at, place = 0; lif_code_sink(&code, place, &at) == LIF_OK; place++) {
        if (at != number) continue;
        must(lif_sink_open(&sink, &code, 0, place));
        must(lif_code_node_name(&code, number, (uint8_t *)name, LIF_NAME, &length));
        snprintf(path, sizeof path, "%s.%s", prefix, name);
        received = opened(path, "wb");
    }
}

static void run_node(uint32_t number, char **words) {
    for (uint32_t from, to, link = 0; lif_code_ends(&code, link, &from, &to) == LIF_OK; link++) {
        if (to != number) close(sockets[link][0]);
        if (from != number) close(sockets[link][1]);
    }
    must(lif_node_open(&node, &code, 0, number));
    open_sink(number, words[3]);
    must(lif_code_close(&code));
    if (number == shape.source) run_source(words[2]);
    else run_relay(strtoull(words[4], NULL, 10) + number);
    must(lif_node_close(&node));
    if (received) must(lif_sink_close(&sink));
    if (received && fclose(received) != 0) fail("a file wasn't written");
    free(sockets);
    exit(EXIT_SUCCESS);
}

int main(int count, char **words) {
    if (count != 5) fail("usage: butterfly CODE SRC PREFIX SEED");
    open_code(words[1]);
    sockets = room(shape.links, sizeof *sockets);
    for (uint32_t link = 0; link < shape.links; link++) {
        if (socketpair(AF_UNIX, SOCK_SEQPACKET, 0, sockets[link]) != 0) fail("there are too many links");
    }
    for (uint32_t number = 0; number < shape.nodes; number++) {
        pid_t child = fork();
        if (child < 0) fail("there are too many nodes");
        if (child == 0) run_node(number, words);
    }
    for (uint32_t link = 0; link < shape.links; link++) {
        close(sockets[link][0]);
        close(sockets[link][1]);
    }
    bool is_done = true;
    for (int status; wait(&status) > 0;) is_done = is_done && status == 0;
    must(lif_code_close(&code));
    free(sockets);
    return is_done ? EXIT_SUCCESS : EXIT_FAILURE;
}
