// Nodes and sinks of coded multicast, for programs that carry the frames themselves.
//
// A code is opened of the bytes of a code file, and nodes and sinks are opened of the code. A source is cut into blocks, which
// are fed to the source's node, one a generation. Nodes give frames, which the program carries along the links to other nodes
// and to sinks; they may come in any order, and more than once. A sink gives each block once enough has come. Code files, blocks
// and frames stand in docs/FORMATS.md, byte for byte.
//
// Each call looks at all numbers and lengths that it is given and at what its handles hold, and answers a status. The errors
// stand with each call in the order in which they are looked for; the first that holds is answered. A call that answers another
// status than LIF_OK changes nothing: no handle, and nothing behind its other pointers, except that lif_code_open writes `why`.
//
// What a caller owes, since no call can look at it:
// - Handles. All bytes zero are a closed handle: `lif_code code = {0};`. A program clears a handle before its first use, and
//   from then on neither writes nor copies it; only the library does. A handle that is open is closed by the close call of its
//   kind, which gives its memory back, before the handle is dropped. The handles of one call are different objects.
// - Pointers. None is null, also where a length is 0. Each points to what its type says, a bool that is to be written to true or
//   false, and bytes to at least as many as the length beside it. What a call writes overlaps nothing else that the call is
//   given. No pointer is kept once the call returns.
// - Threads. One thread at a time uses a handle, also where a call only reads it. It may be another thread each time, with an
//   order between the calls, as a lock gives. Handles of one code share nothing: each may be used by a thread of its own.
// - Signals and forks. No call is made in a signal handler, or in the forked child of a process that had several threads.
//
// Memory comes from malloc and realloc and goes back by free. Only the calls that open take any, and they answer LIF_NO_MEMORY
// where there is too little. The library starts no threads, and reads and writes no files.
#ifndef LIF_H
#define LIF_H

#include <stdbool.h>
#include <stddef.h>
#include <stdint.h>

#ifdef __cplusplus
extern "C" {
#endif

// Statuses.
enum {
    LIF_OK = 0,
    LIF_NO_MEMORY = 1,     // there was too little memory
    LIF_NO_PATTERN = 2,    // the code has no pattern of the number
    LIF_NO_NODE = 3,       // it has no node of the number
    LIF_NO_LINK = 4,       // there is no link of the number, or at the place
    LIF_NO_SINK = 5,       // the code has no sink of the number
    LIF_BAD_WINDOW = 6,    // it isn't 1 to 4 generations with numbers below 2^32
    LIF_NOT_BEGUN = 7,     // the generation wasn't begun
    LIF_NOT_SOURCE = 8,    // the node isn't the source
    LIF_FED = 9,           // the block of the generation was fed before
    LIF_BAD_LENGTH = 10,   // bytes are more or fewer than they have to be
    LIF_BAD_FRAME = 11,    // the bytes aren't a frame
    LIF_OTHER_LINK = 12,   // the frame is of a link that isn't taken in
    LIF_NOT_WHOLE = 13,    // not all of the generation has come
    LIF_NOTHING_DUE = 14,  // no frame is due
    LIF_CLOSED = 15,       // a handle holds nothing
    LIF_OPEN = 16,         // the handle to be opened holds something
    LIF_OTHER_KIND = 17,   // a handle holds something of another kind, which a cast brought there
    LIF_TOO_LONG = 18,     // the bytes are more than a code file may have
    LIF_BAD_CODE = 19,     // the bytes aren't a code file
    LIF_NOT_DECODING = 20  // a sink couldn't decode
};

// Items of a code file that aren't good, by the names that `lif check` says.
enum {
    LIF_BAD_MAGIC = 1,
    LIF_BAD_VERSION = 2,
    LIF_TRUNCATED = 3,
    LIF_BAD_FIELD = 4,
    LIF_BAD_RATE = 5,
    LIF_BAD_NAME = 6,
    LIF_BAD_INDEX = 7,
    LIF_OUT_OF_ORDER = 8,
    LIF_NOT_RISING = 9,
    LIF_ZERO_COEFFICIENT = 10,
    LIF_BAD_OPERAND = 11,
    LIF_TOO_MANY = 12,
    LIF_TRAILING_BYTES = 13,
    LIF_NOT_FIRST = 14,
    LIF_WRITTEN = 15
};

// Sizes: the bytes of a frame, those of a row, the most generations of a window, the most bytes of a name, the most rows of a
// block, and the most bytes of a code file.
enum {
    LIF_FRAME = 140,
    LIF_ROW = 1024,
    LIF_MOST_GENERATIONS = 4,
    LIF_NAME = 32,
    LIF_MOST_ROWS = 32,
    LIF_MOST_CODE = 268435456
};

// Handles of a code, a node and a sink. What stands in them is the library's own.
typedef struct { void *at; bool is_open; } lif_code;
typedef struct { void *at; bool is_open; } lif_node;
typedef struct { void *at; bool is_open; } lif_sink;

// The rate is the number of rows of a block: 1 to 32. The field is 8, 9 or 16, as in code files. The source is the number of its
// node. Then come how many nodes, links, sinks and patterns there are; they are numbered from 0. Pattern 0 is `none`: no link
// fails. A block has room for `capacity` bytes of a source: rate * 1024 - 4.
typedef struct { uint32_t rate, field, source, nodes, links, sinks, patterns, capacity; } lif_shape;

// Why a code wasn't opened. For LIF_BAD_CODE: the item, and `at`, its first byte in the file, counted from 0. It is the number of
// the link for LIF_OUT_OF_ORDER, and 0 for LIF_BAD_MAGIC, LIF_BAD_VERSION, LIF_BAD_FIELD and LIF_BAD_RATE. For LIF_NOT_DECODING:
// the demand, and the first entry of its product that isn't that of the identity, by its row, its column, and the number of the
// element found there. Demand d is sink d / patterns under pattern d % patterns. All else is 0.
typedef struct { uint32_t item, demand, row, column, found; uint64_t at; } lif_refusal;

// Codes.

// Opens a code of the n bytes of a code file: reads and checks it. The program may then drop the bytes.
// LIF_OPEN; LIF_TOO_LONG; LIF_BAD_CODE; LIF_NOT_DECODING; and LIF_NO_MEMORY, of which `why` is all 0, as of LIF_TOO_LONG.
// `why` stays as it was where the answer is LIF_OK or LIF_OPEN.
uint32_t lif_code_open(lif_code *code, const uint8_t *bytes, size_t n, lif_refusal *why);

// Closes a code. Nodes and sinks that were opened of it stay open, and go on.
// LIF_CLOSED; LIF_OTHER_KIND.
uint32_t lif_code_close(lif_code *code);

// Writes the shape of a code.
// LIF_CLOSED; LIF_OTHER_KIND.
uint32_t lif_code_shape(lif_code *code, lif_shape *shape);

// Writes the nodes that a link leaves and leads into.
// LIF_CLOSED; LIF_OTHER_KIND; LIF_NO_LINK.
uint32_t lif_code_ends(lif_code *code, uint32_t link, uint32_t *from, uint32_t *to);

// Writes the node of a sink.
// LIF_CLOSED; LIF_OTHER_KIND; LIF_NO_SINK.
uint32_t lif_code_sink(lif_code *code, uint32_t sink, uint32_t *node);

// Writes the name of a node, 1 to LIF_NAME bytes of ASCII, to the front of `name`, which has room for `room` bytes, and how many
// they are. No zero is put behind them. LIF_NAME bytes are room for every name.
// LIF_CLOSED; LIF_OTHER_KIND; LIF_NO_NODE; LIF_BAD_LENGTH where the name is longer than the room.
uint32_t lif_code_node_name(lif_code *code, uint32_t node, uint8_t *name, size_t room, size_t *length);

// Writes the name of a link, likewise.
// LIF_CLOSED; LIF_OTHER_KIND; LIF_NO_LINK; LIF_BAD_LENGTH.
uint32_t lif_code_link_name(lif_code *code, uint32_t link, uint8_t *name, size_t room, size_t *length);

// Writes the name of a pattern, likewise.
// LIF_CLOSED; LIF_OTHER_KIND; LIF_NO_PATTERN; LIF_BAD_LENGTH.
uint32_t lif_code_pattern_name(lif_code *code, uint32_t pattern, uint8_t *name, size_t room, size_t *length);

// Nodes. Of a window, the generations that were begun, a node holds what comes. A link is live under a pattern where it doesn't
// fail and something comes over it.

// Opens the node of a number under a pattern, before any generation. It takes all memory that the node will need.
// LIF_OPEN of the node; LIF_CLOSED, LIF_OTHER_KIND of the code; LIF_NO_PATTERN; LIF_NO_NODE; LIF_NO_MEMORY.
uint32_t lif_node_open(lif_node *node, lif_code *code, uint32_t pattern, uint32_t number);

// Writes the live link into the node at a place, counted from 0. The links rise by their numbers.
// LIF_CLOSED; LIF_OTHER_KIND; LIF_NO_LINK behind the last.
uint32_t lif_node_link_in(lif_node *node, uint32_t place, uint32_t *link);

// Writes the live link out of the node at a place, likewise.
// LIF_CLOSED; LIF_OTHER_KIND; LIF_NO_LINK behind the last.
uint32_t lif_node_link_out(lif_node *node, uint32_t place, uint32_t *link);

// Begins a window: `count` generations from `first` on. All that came and was given before is forgotten.
// LIF_CLOSED; LIF_OTHER_KIND; LIF_BAD_WINDOW unless 1 <= count <= LIF_MOST_GENERATIONS and first + count <= 2^32.
uint32_t lif_node_begin(lif_node *node, uint32_t first, uint32_t count);

// Feeds the block of a generation, n = rate * LIF_ROW bytes, to the node of the source.
// LIF_CLOSED; LIF_OTHER_KIND; LIF_NOT_SOURCE; LIF_NOT_BEGUN; LIF_BAD_LENGTH; LIF_FED.
uint32_t lif_node_feed(lif_node *node, uint32_t generation, const uint8_t *block, size_t n);

// Takes in a frame of n = LIF_FRAME bytes that came on a live link into the node, and writes whether it is new: false where the
// piece had come before, and then the frame is dropped.
// LIF_CLOSED; LIF_OTHER_KIND; LIF_BAD_LENGTH; LIF_BAD_FRAME; LIF_OTHER_LINK; LIF_NOT_BEGUN.
uint32_t lif_node_accept(lif_node *node, const uint8_t *frame, size_t n, bool *is_new);

// Writes the next frame that is due, n = LIF_FRAME bytes: of those whose pieces have all come and that weren't given since the
// window was begun, the least by generation, link and piece. Bytes 4 to 7 have the number of the link to send it on.
// LIF_CLOSED; LIF_OTHER_KIND; LIF_BAD_LENGTH; LIF_NOTHING_DUE.
uint32_t lif_node_next(lif_node *node, uint8_t *frame, size_t n);

// Closes a node.
// LIF_CLOSED; LIF_OTHER_KIND.
uint32_t lif_node_close(lif_node *node);

// Sinks.

// Opens the sink of a number under a pattern, before any generation. It takes all memory that the sink will need.
// LIF_OPEN of the sink; LIF_CLOSED, LIF_OTHER_KIND of the code; LIF_NO_PATTERN; LIF_NO_SINK; LIF_NO_MEMORY.
uint32_t lif_sink_open(lif_sink *sink, lif_code *code, uint32_t pattern, uint32_t number);

// Begins a window, as lif_node_begin does. All that came before is forgotten.
// LIF_CLOSED; LIF_OTHER_KIND; LIF_BAD_WINDOW.
uint32_t lif_sink_begin(lif_sink *sink, uint32_t first, uint32_t count);

// Writes whether the sink takes in what a link gives it: it decodes by as many links into its node as the rate. Of a number that
// is no link's it writes false.
// LIF_CLOSED; LIF_OTHER_KIND.
uint32_t lif_sink_wants(lif_sink *sink, uint32_t link, bool *wants);

// Takes in a frame of n = LIF_FRAME bytes that came on a link that the sink wants, and writes whether it is new, as
// lif_node_accept does.
// LIF_CLOSED; LIF_OTHER_KIND; LIF_BAD_LENGTH; LIF_BAD_FRAME; LIF_OTHER_LINK; LIF_NOT_BEGUN.
uint32_t lif_sink_accept(lif_sink *sink, const uint8_t *frame, size_t n, bool *is_new);

// Writes whether all frames of a generation have come that the sink wants.
// LIF_CLOSED; LIF_OTHER_KIND; LIF_NOT_BEGUN.
uint32_t lif_sink_is_whole(lif_sink *sink, uint32_t generation, bool *is_whole);

// Writes the block of a generation, n = rate * LIF_ROW bytes. It may be asked for again, until the next window is begun.
// LIF_CLOSED; LIF_OTHER_KIND; LIF_NOT_BEGUN; LIF_BAD_LENGTH; LIF_NOT_WHOLE.
uint32_t lif_sink_block(lif_sink *sink, uint32_t generation, uint8_t *block, size_t n);

// Closes a sink.
// LIF_CLOSED; LIF_OTHER_KIND.
uint32_t lif_sink_close(lif_sink *sink);

// Blocks.

// Writes the block of n bytes of a source: their count, the bytes, and zeros up to `room` bytes, which is rate * LIF_ROW. A
// source is cut into pieces of `capacity` bytes, and a last one that is shorter, perhaps empty: its count ends the source.
// LIF_BAD_LENGTH unless room is 1 to 32 times LIF_ROW and n is at most room - 4.
uint32_t lif_cut(const uint8_t *piece, size_t n, uint8_t *block, size_t room);

// Writes how many bytes of a source a block of n bytes counts, at most n - 4. They stand from byte 4 on.
// LIF_BAD_LENGTH where n is below 4.
uint32_t lif_count(const uint8_t *block, size_t n, size_t *count);

// What a status says, in words.
static inline const char *lif_says(uint32_t status) {
    static const char *const words[] = {
        "it was done",
        "there is no memory",
        "there is no such pattern",
        "there is no such node",
        "there is no such link",
        "there is no such sink",
        "there is no such window",
        "the generation wasn't begun",
        "the node isn't the source",
        "the generation was fed before",
        "the length isn't the one that is needed",
        "the bytes aren't a frame",
        "the frame is of another link",
        "not all of the generation has come",
        "nothing is due",
        "the handle is closed",
        "the handle is open",
        "the handle is of another kind",
        "the bytes are too many for a code file",
        "the bytes aren't a code file",
        "the code doesn't decode",
    };
    return status < sizeof words / sizeof *words ? words[status] : "there is no such status";
}

// The name of an item, as `lif check` says it; of none, an empty one.
static inline const char *lif_item_name(uint32_t item) {
    static const char *const names[] = {
        "",           "BadMagic",   "BadVersion", "Truncated",       "BadField",   "BadRate", "BadName",       "BadIndex",
        "OutOfOrder", "NotRising",  "ZeroCoefficient", "BadOperand", "TooMany",    "TrailingBytes", "NotFirst", "Written",
    };
    return item < sizeof names / sizeof *names ? names[item] : "";
}

#ifdef __cplusplus
}
#endif

#endif
