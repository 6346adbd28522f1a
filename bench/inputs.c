// The events of each row.
#include "bench.h"
#include <stdio.h>
#include <stdlib.h>

enum { REPORT = 0xC0, TO_BOT = 0x21, TO_ERASE = 0x22, TO_WRITE = 0x40, MARK = 0x60, TO_READ = 0x80, TO_MARK = 0xA0 };

void add(struct input *in, uint8_t kind, uint8_t body) {
    if (in->used + 2 > in->room) {
        in->room = 2 * in->room + 4096;
        in->pairs = realloc(in->pairs, in->room);
        if (!in->pairs) {
            perror("bench");
            exit(2);
        }
    }
    in->pairs[in->used++] = kind;
    in->pairs[in->used++] = body;
}

// READ STATUS and its six octets.
void add_report(struct input *in) {
    add(in, COMMAND, REPORT);
    for (int i = 0; i < OCTETS; i++) add(in, TAKE, 0);
}

// Cartridges in, ONLINE, and on each drive the report that it wants after power on; drive 0 is selected.
void add_start(struct input *in) {
    for (uint8_t d = 0; d < DRIVES; d++) add(in, SLOT_IN, d);
    add(in, ONLINE, 0);
    for (uint8_t d = 0; d < DRIVES; d++) {
        add_report(in);
        add(in, COMMAND, (uint8_t)(1 << (d + 1) % DRIVES));
    }
}

static void add_bytes(struct input *in, uint8_t kind, size_t count) {
    for (size_t i = 0; i < count; i++) add(in, kind, (uint8_t)(in->used / 2 * 7 + 1));
}

// Blocks begun, by an order, and left by RESET before the last byte. With `less` they are left after the first one.
static size_t make_within(struct input *in, size_t times, bool less, uint8_t order, uint8_t kind) {
    for (size_t i = 0; i < times; i++) {
        add(in, RESET, 0);
        add_report(in);
        add(in, COMMAND, order);
        add_bytes(in, kind, less ? 1 : BODY - 1);
    }
    return times * (BODY - 2);
}

size_t make_given(struct input *in, size_t times, bool less) { return make_within(in, times, less, TO_WRITE, GIVE); }

size_t make_taken(struct input *in, size_t times, bool less) { return make_within(in, times, less, TO_READ, TAKE); }

size_t make_written(struct input *in, size_t times, bool less) {
    if (less) return times;
    add(in, COMMAND, TO_WRITE);
    add_bytes(in, GIVE, times * BODY);
    return times;
}

size_t make_read(struct input *in, size_t times, bool less) {
    if (less) return times;
    add(in, COMMAND, TO_READ);
    add_bytes(in, TAKE, times * BODY);
    return times;
}

size_t make_report(struct input *in, size_t times, bool less) {
    for (size_t i = 0; i < times && !less; i++) add_report(in);
    return times;
}

size_t make_select(struct input *in, size_t times, bool less) {
    for (size_t i = 0; i < times && !less; i++) add(in, COMMAND, (uint8_t)(1 << (i + 1) % DRIVES));
    return times;
}

// Errors and underruns on each drive in turn.
size_t make_count(struct input *in, size_t times, bool less) {
    for (size_t i = 0; i < times && !less; i++) add(in, i & 4 ? ERROR : UNDERRUN, i % DRIVES);
    return times;
}

// Behind the first file mark of the tape.
static void add_way(struct input *in) {
    add(in, COMMAND, TO_MARK);
    add_report(in);
}

size_t make_written_on(struct input *in, size_t times, bool less) {
    add_way(in);
    return make_written(in, times, less) * BODY;
}

size_t make_read_on(struct input *in, size_t times, bool less) {
    add_way(in);
    return make_read(in, times, less) * BODY;
}

// READ FILE MARK over the whole tape; behind its blocks stands the end of data, which the report tells.
size_t make_mark(struct input *in, size_t times, bool less) {
    for (size_t i = 0; i < times; i++) {
        if (!less) add(in, COMMAND, TO_MARK);
        add_report(in);
        add(in, COMMAND, TO_BOT);
    }
    return times;
}

size_t make_erase(struct input *in, size_t times, bool less) {
    for (size_t i = 0; i < times && !less; i++) add(in, COMMAND, TO_ERASE);
    return times;
}

// A block and a mark recorded and read back, and the slots and counts around them.
size_t make_mixed(struct input *in, size_t times, bool less) {
    size_t before = in->used;
    for (size_t i = 0; i < times && !less; i++) {
        uint8_t d = i % DRIVES;
        add(in, COMMAND, (uint8_t)(1 << d));
        add(in, COMMAND, TO_WRITE);
        add_bytes(in, GIVE, BODY);
        add(in, UNDERRUN, d);
        add(in, COMMAND, MARK);
        add(in, COMMAND, TO_BOT);
        add(in, COMMAND, TO_READ);
        add_bytes(in, TAKE, BODY);
        add_report(in);
        add(in, SLOT_OUT, d);
        add(in, SLOT_IN, d);
        add_report(in);
    }
    return (in->used - before) / 2;
}

// A trial closed past early warning, on a tape of three blocks and two bytes: EOM, two late blocks, EOM, the mark, and all
// of it read back.
size_t make_late(struct input *in, size_t times, bool less) {
    for (size_t i = 0; i < times && !less; i++) {
        add(in, COMMAND, TO_WRITE);
        add_bytes(in, GIVE, BODY);
        add_report(in);
        add(in, COMMAND, TO_WRITE);
        add_bytes(in, GIVE, 2 * BODY);
        add_report(in);
        add(in, COMMAND, MARK);
        add(in, COMMAND, TO_BOT);
        add(in, COMMAND, TO_READ);
        add_bytes(in, TAKE, 3 * BODY);
        add_report(in);
        add(in, COMMAND, TO_BOT);
    }
    return times;
}

// A bad record, met behind a block, by an order and by a search; each report tells of it.
size_t make_bad(struct input *in, size_t times, bool less) {
    for (size_t i = 0; i < times && !less; i++) {
        add(in, COMMAND, TO_READ);
        add_bytes(in, TAKE, BODY);
        add_report(in);
        add(in, COMMAND, TO_READ);
        add_report(in);
        add(in, COMMAND, TO_BOT);
        add(in, COMMAND, TO_MARK);
        add_report(in);
        add(in, COMMAND, TO_BOT);
    }
    return times;
}
