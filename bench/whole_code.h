// Reads a code file of docs/FORMATS.md with all of its patterns, or the file of a draft, which has no decoders. It is taken as it
// stands: nothing is checked but what code_file.h checks.
#ifndef WHOLE_CODE_H
#define WHOLE_CODE_H

#include "code_file.h"

// A listed pattern: the links that fail.
struct pattern {
    unsigned count;
    unsigned *links;
};

// All operands of a link.
struct operands {
    unsigned count;
    struct operand *at;
};

// What a file has. The decoders are their bytes, sinks outside and patterns inside; a draft has none.
struct file {
    struct code code;
    struct pattern *patterns;
    struct operands *operands;
    const uint8_t **decoders;
};

static void take_listed(struct file *file, struct bytes *rest) {
    unsigned listed = take(rest, 2);
    file->code.pattern_count = listed + 1;
    file->patterns = room(listed + 1, sizeof *file->patterns);
    for (unsigned number = 1; number <= listed; number++) {
        struct pattern *pattern = &file->patterns[number];
        free(take_name(rest));
        pattern->count = take(rest, 2);
        pattern->links = room(pattern->count, sizeof *pattern->links);
        for (unsigned place = 0; place < pattern->count; place++) {
            pattern->links[place] = take_below(rest, 2, file->code.link_count);
        }
    }
}

static void take_all_operands(struct file *file, struct bytes *rest) {
    const struct code *code = &file->code;
    file->operands = room(code->link_count, sizeof *file->operands);
    for (unsigned link = 0; link < code->link_count; link++) {
        struct operands *operands = &file->operands[link];
        unsigned bound = code->links[link].tail == code->source ? code->rate : code->link_count;
        operands->count = take_below(rest, 2, MOST_OPERANDS + 1);
        operands->at = room(operands->count, sizeof *operands->at);
        for (unsigned place = 0; place < operands->count; place++) {
            operands->at[place].from = take_below(rest, 2, bound);
            operands->at[place].times = take(rest, width_of(code));
        }
    }
}

static void take_whole(struct file *file, struct bytes rest, unsigned mark) {
    struct code *code = &file->code;
    take_front(code, &rest, mark);
    take_links(code, &rest);
    take_sinks(code, &rest);
    take_listed(file, &rest);
    take_all_operands(file, &rest);
    if (mark == CODE_MARK) file->decoders = take_all_decoders(code, &rest);
    if (rest.length != 0) fail("a file is too long");
}

// From here on the links of a pattern fail, and no others.
static void fail_links(const struct file *file, unsigned pattern) {
    const struct code *code = &file->code;
    for (unsigned link = 0; link < code->link_count; link++) code->links[link].has_failed = false;
    for (unsigned place = 0; place < file->patterns[pattern].count; place++) {
        code->links[file->patterns[pattern].links[place]].has_failed = true;
    }
}

#endif
