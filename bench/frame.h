// Frames of docs/FORMATS.md: how long they and the rows are that they carry pieces of, and what a frame begins with.
#ifndef FRAME_H
#define FRAME_H

#include <stdint.h>

enum { PIECES = 8, PIECE = 128, HEAD = 12, FRAME = HEAD + PIECE, ROW = PIECES * PIECE };

static inline void put_number(uint8_t *into, uint32_t number) {
    into[0] = (uint8_t)(number >> 24);
    into[1] = (uint8_t)(number >> 16);
    into[2] = (uint8_t)(number >> 8);
    into[3] = (uint8_t)number;
}

static inline uint32_t number_at(const uint8_t *from) {
    return (uint32_t)from[0] << 24 | (uint32_t)from[1] << 16 | (uint32_t)from[2] << 8 | from[3];
}

static inline void put_head(uint8_t *frame, uint32_t link, uint32_t generation, unsigned piece) {
    frame[0] = 'L';
    frame[1] = 'F';
    frame[2] = 1;
    frame[3] = (uint8_t)piece;
    put_number(frame + 4, link);
    put_number(frame + 8, generation);
}

static inline uint32_t link_of(const uint8_t *frame) {
    return number_at(frame + 4);
}

static inline uint32_t generation_of(const uint8_t *frame) {
    return number_at(frame + 8);
}

static inline unsigned piece_of(const uint8_t *frame) {
    return frame[3];
}

#endif
