// Sends a source through a code as frames over links, as `lif send` does, and makes the sums and the blocks by ISA-L.
// It makes the same files, puts the same frames, and takes them in the same order. Prints how many frames were put.
//
// For each block of the source the frames of the source's links are put on an array of the pairs that fly. Then one pair
// after another is taken: that at the place of the next word of PCG32 counted round, and the last one moves into the gap.
// Its payload is kept in the row of its link, and each link out of the node there is counted down for this piece, where
// it has the link as an operand. A link that lacks no operand any more gives its frame, the least link first. Where
// nothing flies, each sink's block is made of the rows that were kept, by one call of the library, and the bytes that it
// counts are added to the sink's file by one write. The files are kept open. Nothing is checked of the code, nor whether
// a piece came before, since no pair is given twice.
//
// Over the field of 65,536 elements rows stand with their octets parted, the high ones before the low ones. Products
// of elements are then four products of octets each, as those of a matrix twice as high and twice as wide. The octets
// of a payload are parted as it is kept, and joined as it is given.
#include "code_file.h"
#include "frame.h"

#include <inttypes.h>
#include <isa-l/erasure_code.h>

enum { COUNT = 4, STREAM = 54 };

// Sums of planes, each plane times an octet; a plane is a row's octets of one kind. One row as it stands is a copy.
struct sum {
    int count;
    bool is_copy;
    uint8_t *tables;
    uint8_t **planes;
};

// The live links that have a link as an operand, rising.
struct readers {
    unsigned count;
    unsigned *links;
};

// A frame and the link that it is on.
struct flight {
    uint32_t link;
    uint8_t frame[FRAME];
};

struct pcg {
    uint64_t state;
    uint64_t increment;
};

// For each piece, and there for each link, stands how many operands there are, and how many of them haven't come. The
// block is in planes, as are the rows that came and the block that is decoded; `joined` is a block as in the source.
struct run {
    struct code code;
    struct sum *sums;
    struct sum *decoders;
    struct readers *readers;
    uint16_t *operands;
    uint16_t *missing;
    uint8_t *block;
    uint8_t *rows;
    uint8_t *decoded;
    uint8_t *joined;
    uint8_t **from;
    uint8_t **into;
    int *files;
    struct flight *flying;
    unsigned flying_count;
    struct pcg pcg;
    uint64_t frames;
};

static void step(struct pcg *pcg) {
    pcg->state = pcg->state * 6364136223846793005u + pcg->increment;
}

static struct pcg start_pcg(uint64_t seed, uint64_t stream) {
    struct pcg pcg = {seed, stream << 1 | 1};
    pcg.state += pcg.increment;
    step(&pcg);
    return pcg;
}

static uint32_t next_word(struct pcg *pcg) {
    uint64_t state = pcg->state;
    uint32_t word = (uint32_t)((state >> 18 ^ state) >> 27);
    unsigned turns = (unsigned)(state >> 59);
    step(pcg);
    return word >> turns | word << (-turns & 31);
}

// How many planes a row is, and how long a plane and a piece of one are.
static unsigned planes(const struct code *code) {
    return width_of(code);
}

static unsigned plane_length(const struct code *code) {
    return ROW / planes(code);
}

static unsigned part_length(const struct code *code) {
    return PIECE / planes(code);
}

static void part(uint8_t *restrict high, uint8_t *restrict low, const uint8_t *restrict from, unsigned length) {
    for (unsigned place = 0; place < length; place++) {
        high[place] = from[2 * place];
        low[place] = from[2 * place + 1];
    }
}

static void join(uint8_t *restrict into, const uint8_t *restrict high, const uint8_t *restrict low, unsigned length) {
    for (unsigned place = 0; place < length; place++) {
        into[2 * place] = high[place];
        into[2 * place + 1] = low[place];
    }
}

static void point_to(const struct code *code, uint8_t **into, uint8_t *rows, unsigned row) {
    for (unsigned plane = 0; plane < planes(code); plane++) {
        into[plane] = rows + (size_t)row * ROW + plane * plane_length(code);
    }
}

// Puts into a matrix of so many columns the octets that stand for an element: for each plane of the result, and in it
// for each plane of the operand, what the operand's octets are multiplied by.
static void put_octets(const struct code *code, uint8_t *matrix, unsigned width, unsigned element) {
    uint8_t low = (uint8_t)element;
    uint8_t high = (uint8_t)(element >> 8);
    if (planes(code) == 1) {
        matrix[0] = low;
        return;
    }
    matrix[0] = high ^ low;
    matrix[1] = high;
    matrix[width] = gf_mul(0x20, high);
    matrix[width + 1] = low;
}

static uint8_t other_product(uint8_t left, uint8_t right) {
    unsigned sum = 0;
    unsigned multiple = left;
    for (unsigned bit = 0; bit < 8; bit++) {
        if (right >> bit & 1) sum ^= multiple;
        multiple <<= 1;
        if (multiple & 0x100) multiple ^= 0x11B;
    }
    return (uint8_t)sum;
}

// The tables of a matrix. The library makes those of 0x11D alone; in the field of 0x11B they have the same layout, the
// products of each entry with the bytes below 16, and with their multiples of 16.
static void fill_tables(const struct code *code, unsigned width, unsigned height, uint8_t *matrix, uint8_t *tables) {
    if (code->field != 9) {
        ec_init_tables((int)width, (int)height, matrix, tables);
        return;
    }
    for (size_t place = 0; place < (size_t)width * height; place++) {
        for (unsigned nibble = 0; nibble < 16; nibble++) {
            tables[32 * place + nibble] = other_product(matrix[place], (uint8_t)nibble);
            tables[32 * place + 16 + nibble] = other_product(matrix[place], (uint8_t)(nibble << 4));
        }
    }
}

// So many sums of so many rows. The entries stand sum by sum. The planes aren't pointed to yet.
static struct sum new_sum(const struct code *code, unsigned rows, unsigned sums, const unsigned *entries) {
    unsigned width = rows * planes(code);
    unsigned height = sums * planes(code);
    uint8_t *matrix = room((size_t)width * height, 1);
    for (unsigned place = 0; place < rows * sums; place++) {
        size_t at = (size_t)(place / rows) * planes(code) * width + place % rows * planes(code);
        put_octets(code, matrix + at, width, entries[place]);
    }
    struct sum sum = {(int)width, rows == 1 && sums == 1 && entries[0] == 1, room((size_t)width * height, 32),
                      room(width, sizeof *sum.planes)};
    fill_tables(code, width, height, matrix, sum.tables);
    free(matrix);
    return sum;
}

static struct sum link_sum(const struct run *run, const struct link *link) {
    const struct code *code = &run->code;
    unsigned *times = room(link->count, sizeof *times);
    for (unsigned place = 0; place < link->count; place++) times[place] = link->operands[place].times;
    struct sum sum = new_sum(code, link->count, 1, times);
    for (unsigned place = 0; place < link->count; place++) {
        uint8_t *rows = link->tail == code->source ? run->block : run->rows;
        point_to(code, sum.planes + place * planes(code), rows, link->operands[place].from);
    }
    free(times);
    return sum;
}

// A link that isn't live stays a row of zeros.
static struct sum sink_sum(const struct run *run, const struct sink *sink) {
    const struct code *code = &run->code;
    struct sum sum = new_sum(code, code->rate, code->rate, sink->entries);
    for (unsigned place = 0; place < code->rate; place++) {
        point_to(code, sum.planes + place * planes(code), run->rows, sink->links[place]);
    }
    return sum;
}

static void add_reader(struct run *run, unsigned operand, unsigned link) {
    struct readers *readers = &run->readers[operand];
    if ((readers->count & (readers->count - 1)) == 0) {
        size_t most = readers->count == 0 ? 1 : 2 * readers->count;
        readers->links = realloc(readers->links, most * sizeof *readers->links);
        if (!readers->links) fail("there is no memory");
    }
    readers->links[readers->count++] = link;
}

static void start_link(struct run *run, unsigned number) {
    const struct link *link = &run->code.links[number];
    run->sums[number] = link_sum(run, link);
    for (unsigned piece = 0; piece < PIECES; piece++) {
        run->operands[piece * run->code.link_count + number] = (uint16_t)link->count;
    }
    if (link->tail == run->code.source) return;
    for (unsigned place = 0; place < link->count; place++) add_reader(run, link->operands[place].from, number);
}

static void make_rooms(struct run *run) {
    const struct code *code = &run->code;
    run->sums = room(code->link_count, sizeof *run->sums);
    run->decoders = room(code->sink_count, sizeof *run->decoders);
    run->readers = room(code->link_count, sizeof *run->readers);
    run->operands = room(code->link_count, PIECES * sizeof *run->operands);
    run->missing = room(code->link_count, PIECES * sizeof *run->missing);
    run->block = room(code->rate, ROW);
    run->rows = room(code->link_count, ROW);
    run->decoded = room(code->rate, ROW);
    run->joined = room(code->rate, ROW);
    run->from = room(MOST_OPERANDS * planes(code), sizeof *run->from);
    run->into = room(code->rate * planes(code), sizeof *run->into);
    run->files = room(code->sink_count, sizeof *run->files);
    run->flying = room(code->link_count, PIECES * sizeof *run->flying);
}

static void start(struct run *run) {
    const struct code *code = &run->code;
    make_rooms(run);
    for (unsigned link = 0; link < code->link_count; link++) start_link(run, link);
    for (unsigned sink = 0; sink < code->sink_count; sink++) run->decoders[sink] = sink_sum(run, &code->sinks[sink]);
    for (unsigned row = 0; row < code->rate; row++) point_to(code, run->into + row * planes(code), run->decoded, row);
}

static void open_files(struct run *run, const char *prefix) {
    for (unsigned sink = 0; sink < run->code.sink_count; sink++) {
        char path[4096];
        snprintf(path, sizeof path, "%s.%s", prefix, run->code.names[run->code.sinks[sink].node]);
        run->files[sink] = open(path, O_WRONLY | O_CREAT | O_TRUNC | O_APPEND, 0666);
        if (run->files[sink] < 0) fail("a file can't be made");
    }
}

// Makes a block of a piece of the source: how long it is, the piece, and zeros.
static void cut(struct run *run, const uint8_t *piece, unsigned length) {
    const struct code *code = &run->code;
    uint8_t *block = planes(code) == 1 ? run->block : run->joined;
    put_number(block, length);
    memcpy(block + COUNT, piece, length);
    memset(block + COUNT + length, 0, code->rate * ROW - COUNT - length);
    if (planes(code) == 1) return;
    for (size_t at = 0; at < (size_t)code->rate * ROW; at += ROW) {
        part(run->block + at, run->block + at + ROW / 2, block + at, ROW / 2);
    }
}

static void add_up(struct run *run, const struct sum *sum, unsigned piece, uint8_t *payload) {
    unsigned length = part_length(&run->code);
    uint8_t parts[PIECE];
    uint8_t *into[] = {planes(&run->code) == 1 ? payload : parts, parts + PIECE / 2};
    for (int plane = 0; plane < sum->count; plane++) run->from[plane] = sum->planes[plane] + piece * length;
    ec_encode_data((int)length, sum->count, (int)planes(&run->code), sum->tables, run->from, into);
    if (planes(&run->code) == 2) join(payload, into[0], into[1], length);
}

static void copy(const struct run *run, const struct sum *sum, unsigned piece, uint8_t *payload) {
    unsigned at = piece * part_length(&run->code);
    if (planes(&run->code) == 1) {
        memcpy(payload, sum->planes[0] + at, PIECE);
    } else {
        join(payload, sum->planes[0] + at, sum->planes[1] + at, PIECE / 2);
    }
}

// Puts the frame of a piece of a link's row, of which all operands came.
static void put(struct run *run, unsigned link, uint32_t generation, unsigned piece) {
    struct flight *flight = &run->flying[run->flying_count++];
    const struct sum *sum = &run->sums[link];
    flight->link = link;
    put_head(flight->frame, link, generation, piece);
    if (sum->is_copy) {
        copy(run, sum, piece, flight->frame + HEAD);
    } else {
        add_up(run, sum, piece, flight->frame + HEAD);
    }
    run->frames++;
}

static void put_source(struct run *run, uint32_t generation) {
    for (unsigned number = 0; number < run->code.link_count; number++) {
        const struct link *link = &run->code.links[number];
        if (link->tail != run->code.source || !link->is_live) continue;
        for (unsigned piece = 0; piece < PIECES; piece++) put(run, number, generation, piece);
    }
}

static void keep(struct run *run, unsigned link, unsigned piece, const uint8_t *payload) {
    uint8_t *at = run->rows + (size_t)link * ROW + piece * part_length(&run->code);
    if (planes(&run->code) == 1) {
        memcpy(at, payload, PIECE);
    } else {
        part(at, at + ROW / 2, payload, PIECE / 2);
    }
}

static void put_due(struct run *run, unsigned link, uint32_t generation, unsigned piece) {
    const struct readers *readers = &run->readers[link];
    uint16_t *missing = run->missing + piece * run->code.link_count;
    for (unsigned place = 0; place < readers->count; place++) {
        unsigned reader = readers->links[place];
        if (--missing[reader] == 0) put(run, reader, generation, piece);
    }
}

// Takes the pair at the place of the next word, and gives it to the node at its link's head.
static void turn(struct run *run) {
    struct flight *taken = &run->flying[next_word(&run->pcg) % run->flying_count];
    unsigned link = link_of(taken->frame);
    uint32_t generation = generation_of(taken->frame);
    unsigned piece = piece_of(taken->frame);
    keep(run, link, piece, taken->frame + HEAD);
    *taken = run->flying[--run->flying_count];
    put_due(run, link, generation, piece);
}

static void decode(struct run *run, const struct sum *sum) {
    const struct code *code = &run->code;
    ec_encode_data((int)plane_length(code), sum->count, sum->count, sum->tables, sum->planes, run->into);
    if (planes(code) == 1) return;
    for (size_t at = 0; at < (size_t)code->rate * ROW; at += ROW) {
        join(run->joined + at, run->decoded + at, run->decoded + at + ROW / 2, ROW / 2);
    }
}

static void append(const struct run *run, int file) {
    const uint8_t *block = planes(&run->code) == 1 ? run->decoded : run->joined;
    size_t length = number_at(block);
    if (length > run->code.rate * ROW - COUNT) fail("a block counts more bytes than it has");
    if (length != 0 && write(file, block + COUNT, length) != (ssize_t)length) fail("a write failed");
}

static void send_block(struct run *run, uint32_t generation) {
    memcpy(run->missing, run->operands, run->code.link_count * PIECES * sizeof *run->missing);
    put_source(run, generation);
    while (run->flying_count > 0) turn(run);
    for (unsigned sink = 0; sink < run->code.sink_count; sink++) {
        decode(run, &run->decoders[sink]);
        append(run, run->files[sink]);
    }
}

static void send_source(struct run *run, struct bytes source) {
    size_t most = run->code.rate * ROW - COUNT;
    uint32_t generation = 0;
    for (size_t at = 0; at <= source.length; at += most) {
        size_t rest = source.length - at;
        cut(run, source.at + at, (unsigned)(rest < most ? rest : most));
        send_block(run, generation++);
    }
}

int main(int count, char **words) {
    static struct run run;
    if (count != 6) {
        fprintf(stderr, "usage: send_frames CODE PATTERN SEED SRC PREFIX\n");
        return 2;
    }
    take_code(&run.code, read_file(words[1]), words[2]);
    start(&run);
    run.pcg = start_pcg(strtoull(words[3], NULL, 10), STREAM);
    open_files(&run, words[5]);
    send_source(&run, read_file(words[4]));
    printf("%" PRIu64 "\n", run.frames);
    return 0;
}
