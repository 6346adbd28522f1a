// Blocks moved by few calls, beside the C that moves them event by event.
#include "bench.h"
#include "../include/glenoulty.h"
#include <stdio.h>
#include <stdlib.h>
#include <string.h>

// The events of a row, cut behind its order: what follows are bytes of blocks.
struct blocks blocks_of(const struct row *row) {
    struct blocks b = {0};
    add_start(&b.before);
    size_t from = b.before.used + 2;
    row->make(&b.before, row->times, false);
    b.given = b.before.pairs[from] == GIVE;
    b.length = (b.before.used - from) / 2;
    b.bytes = malloc(b.length);
    if (!b.bytes) {
        perror("bench");
        exit(2);
    }
    for (size_t i = 0; i < b.length; i++) b.bytes[i] = b.before.pairs[from + 2 * i + 1];
    b.before.used = from;
    return b;
}

void free_blocks(struct blocks *b) {
    free(b->before.pairs);
    free(b->bytes);
}

static void give_byte(struct unit *u, uint8_t byte) {
    const uint8_t event[] = {GIVE, byte};
    struct result r;
    baseline_step(u, lent, event, sizeof event, &r);
}

static uint8_t take_byte(struct unit *u) {
    const uint8_t event[] = {TAKE};
    struct result r;
    baseline_step(u, lent, event, sizeof event, &r);
    return r.byte;
}

// Each byte an event.
static size_t by_events(const struct blocks *b) {
    struct unit u;
    run_plain(&u, &b->before);
    for (size_t i = 0; i < b->length; i++) {
        if (b->given) give_byte(&u, b->bytes[i]);
        else b->bytes[i] = take_byte(&u);
    }
    return u.selected;
}

// Where the bytes of the block at the head stand.
static uint8_t *body(const struct unit *u) { return lent[u->selected].bytes + u->head[u->selected] + 1; }

static void at_last(struct unit *u, uint8_t phase) {
    u->phase = phase;
    u->place = BODY - 1;
}

// Two plain copies by way of the staging block, and the event of the last byte, on a record that has the 511 before it.
static void give_copied(struct unit *u, const uint8_t *bytes) {
    memcpy(u->staging, bytes, BODY);
    memcpy(body(u), u->staging, BODY);
    at_last(u, TAKING);
    give_byte(u, bytes[BODY - 1]);
}

static void take_copied(struct unit *u, uint8_t *bytes) {
    memcpy(u->staging, body(u), BODY);
    memcpy(bytes, u->staging, BODY);
    at_last(u, GIVING);
    bytes[BODY - 1] = take_byte(u);
}

static size_t by_copies(const struct blocks *b) {
    struct unit u;
    run_plain(&u, &b->before);
    for (size_t i = 0; i < b->length; i += BODY) {
        if (b->given) give_copied(&u, b->bytes + i);
        else take_copied(&u, b->bytes + i);
    }
    return u.selected;
}

// A call for so many blocks, as firmware makes it; the last one for those that are left.
static size_t by_calls(const struct blocks *b, size_t blocks) {
    static uint8_t record[GLENOULTY_SIZE];
    glenoulty_result r;
    run_board(record, &b->before);
    for (size_t i = 0; i < b->length; i += blocks * BODY) {
        size_t left = b->length - i, n = left < blocks * BODY ? left : blocks * BODY;
        if (b->given) glenoulty_give(record, sizeof record, TAPES, b->bytes + i, n, &r);
        else glenoulty_take(record, sizeof record, TAPES, b->bytes + i, n, &r);
    }
    return record[1];
}

static size_t at_once(const struct blocks *b) {
    const struct input *in = &b->before;
    if (b->given) return pace_give(TAPES, in->pairs, in->used, b->bytes, b->length);
    return pace_take(TAPES, in->pairs, in->used, b->bytes, b->length);
}

size_t move_blocks(enum mover mover, const struct blocks *b) {
    switch (mover) {
    case EVENTS: return by_events(b);
    case COPIES: return by_copies(b);
    case CALLS: return by_calls(b, 1);
    case EIGHTS: return by_calls(b, 8);
    default: return at_once(b);
    }
}
