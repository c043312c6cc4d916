// Adds rows, each times one element of a field of octets, to as many other rows, over and over. The first word says by which
// loop, isal or plain, the second is the field's mark, 8 for that of 0x11D and 9 for that of 0x11B, the third is the element's
// number, and the fourth how many rows there are. Prints the nanoseconds that it took and a checksum of the sums.
#include <isa-l/erasure_code.h>
#include <stdint.h>
#include <stdio.h>
#include <stdlib.h>
#include <string.h>
#include <time.h>

// How long a row is, in bytes, how many rows are added in all, and how many there can be.
enum { ROW = 1024, ADDITIONS = 409600, MOST_ROWS = 65535 };

// The products of an element with the bytes below 16, and with their multiples of 16.
struct tables {
    uint8_t low[16];
    uint8_t high[16];
};

typedef void (*add_scaled)(struct tables *tables, uint8_t *into, uint8_t *from);

// As many rows that are added to as rows that are added.
struct rows {
    size_t count;
    uint8_t *into;
    uint8_t *from;
};

static uint8_t product(unsigned polynomial, uint8_t left, uint8_t right) {
    unsigned sum = 0;
    unsigned multiple = left;
    for (unsigned bit = 0; bit < 8; bit++) {
        if (right >> bit & 1) sum ^= multiple;
        multiple <<= 1;
        if (multiple & 0x100) multiple ^= polynomial;
    }
    return (uint8_t)sum;
}

static struct tables make_tables(unsigned field, uint8_t multiplier) {
    struct tables tables;
    unsigned polynomial = field == 9 ? 0x11B : 0x11D;
    for (unsigned nibble = 0; nibble < 16; nibble++) {
        tables.low[nibble] = product(polynomial, multiplier, (uint8_t)nibble);
        tables.high[nibble] = product(polynomial, multiplier, (uint8_t)(nibble << 4));
    }
    return tables;
}

static void add_plain(struct tables *tables, uint8_t *into, uint8_t *from) {
    for (size_t place = 0; place < ROW; place++) {
        into[place] ^= tables->low[from[place] & 15] ^ tables->high[from[place] >> 4];
    }
}

// The library's tables have the layout of those above.
static void add_isal(struct tables *tables, uint8_t *into, uint8_t *from) {
    gf_vect_mad(ROW, 1, 0, (unsigned char *)tables, from, into);
}

static void add_rows(add_scaled add, struct tables *tables, uint8_t *into, uint8_t *from, size_t count) {
    for (size_t row = 0; row < count; row++) add(tables, into + row * ROW, from + row * ROW);
}

// In each round a row is added to each, and in the next round it is the row behind that.
static void add_rounds(add_scaled add, struct tables *tables, struct rows *rows) {
    for (size_t round = 0; round < ADDITIONS / rows->count; round++) {
        size_t first = round % rows->count;
        size_t rest = rows->count - first;
        add_rows(add, tables, rows->into, rows->from + first * ROW, rest);
        add_rows(add, tables, rows->into + rest * ROW, rows->from, first);
    }
}

static void fill(uint8_t *bytes, size_t length, uint32_t seed) {
    for (size_t place = 0; place < length; place++) {
        bytes[place] = (uint8_t)(((uint32_t)place + seed) * 2654435761u >> 24);
    }
}

static uint32_t checksum(const uint8_t *bytes, size_t length) {
    uint32_t sum = 0;
    for (size_t place = 0; place < length; place++) sum = sum * 31 + bytes[place];
    return sum;
}

static long long nanoseconds(struct timespec time) {
    return (long long)time.tv_sec * 1000000000 + time.tv_nsec;
}

static int measure(add_scaled add, struct tables *tables, struct rows *rows) {
    struct timespec start, end;
    size_t length = rows->count * ROW;
    fill(rows->into, length, 0);
    fill(rows->from, length, 12345);
    if (clock_gettime(CLOCK_MONOTONIC, &start) != 0) return 1;
    add_rounds(add, tables, rows);
    if (clock_gettime(CLOCK_MONOTONIC, &end) != 0) return 1;
    long long elapsed = nanoseconds(end) - nanoseconds(start);
    return printf("%lld %lu\n", elapsed, (unsigned long)checksum(rows->into, length)) < 0;
}

static int run(add_scaled add, struct tables *tables, size_t count) {
    struct rows rows = {count, malloc(count * ROW), malloc(count * ROW)};
    int status = rows.into && rows.from ? measure(add, tables, &rows) : 1;
    free(rows.from);
    free(rows.into);
    return status;
}

// The library makes the tables of 0x11D alone.
static int run_isal(unsigned field, uint8_t multiplier, size_t count) {
    struct tables tables = make_tables(field, multiplier);
    if (field == 8) gf_vect_mul_init(multiplier, (unsigned char *)&tables);
    return run(add_isal, &tables, count);
}

static int run_plain(unsigned field, uint8_t multiplier, size_t count) {
    struct tables tables = make_tables(field, multiplier);
    return run(add_plain, &tables, count);
}

// The number that a word is, or one past the greatest that it can be.
static unsigned long number(const char *word, unsigned long greatest) {
    char *end;
    unsigned long value = strtoul(word, &end, 10);
    return end == word || *end != 0 || value > greatest ? greatest + 1 : value;
}

static int say_usage(void) {
    fprintf(stderr, "usage: rows isal|plain 8|9 NUMBER ROWS\n");
    return 2;
}

int main(int count, char **words) {
    if (count != 5) return say_usage();
    unsigned field = (unsigned)number(words[2], 9);
    unsigned long multiplier = number(words[3], 255);
    unsigned long rows = number(words[4], MOST_ROWS);
    if ((field != 8 && field != 9) || multiplier > 255 || rows == 0 || rows > MOST_ROWS) return say_usage();
    if (strcmp(words[1], "isal") == 0) return run_isal(field, (uint8_t)multiplier, rows);
    if (strcmp(words[1], "plain") == 0) return run_plain(field, (uint8_t)multiplier, rows);
    return say_usage();
}
