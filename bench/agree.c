// The ways have to agree before they are measured.
#include "bench.h"
#include "../include/glenoulty.h"
#include <stdio.h>
#include <stdlib.h>
#include <string.h>

// The bytes of a call, at most: no part of a block, so that calls begin and end within blocks too.
enum { CALL = 700 };

static uint8_t wanted[DRIVES][LONGEST], others[DRIVES][LONGEST];
static uint8_t record[GLENOULTY_SIZE], moved[CALL];

static _Noreturn void differ(const struct row *row, const char *what, size_t event) {
    printf("DIFFER: %s: %s, event %zu\n", row->name, what, event);
    exit(1);
}

static void same_tapes(const struct row *row, const char *what) {
    for (size_t d = 0; d < DRIVES; d++)
        if (memcmp(lent[d].bytes, wanted[d], lent[d].length)) differ(row, what, 0);
}

static void keep_tapes(void) {
    for (size_t d = 0; d < DRIVES; d++) memcpy(wanted[d], lent[d].bytes, lent[d].length);
}

#define OTHERS(l) record, sizeof record, others[0], l, others[1], l, others[2], l, others[3], l

// The event at `i` by glenoulty_step. Returns 1, and puts the byte that it hands out to the front of `moved`.
static size_t post(const struct input *in, size_t i, size_t l, glenoulty_result *g) {
    const uint8_t *event = in->pairs + 2 * i;
    glenoulty_step(OTHERS(l), event, event_size(event[0]), g);
    moved[0] = g->byte;
    return 1;
}

// The run of bytes given or taken at `i` by one call, as long as that goes, or one event where there is none. Returns how
// many events that is; `moved` has what each handed out.
static size_t post_many(const struct input *in, size_t i, size_t l, glenoulty_result *g) {
    uint8_t kind = in->pairs[2 * i];
    size_t n = 0, went;
    if (kind != GIVE && kind != TAKE) return post(in, i, l, g);
    for (; n < CALL && 2 * (i + n) < in->used && in->pairs[2 * (i + n)] == kind; n++)
        moved[n] = in->pairs[2 * (i + n) + 1];
    if (kind == TAKE) return glenoulty_take(OTHERS(l), moved, n, g);
    went = glenoulty_give(OTHERS(l), moved, n, g);
    memset(moved, 0, n);
    return went;
}

// Each event, or with `many` each run of bytes, by the archive on tapes of its own, and each event by the baseline on
// those that are lent: every byte, answer, given, byte and lines after each call, and the tapes at the end.
void agree_each(const struct row *row, const struct input *in, bool many) {
    struct unit u;
    struct result r;
    glenoulty_result g;
    size_t l = row->length, i = 0;
    baseline_fresh(&u);
    glenoulty_fresh(record, sizeof record);
    for (size_t d = 0; d < DRIVES; d++) memcpy(others[d], lent[d].bytes, l);
    while (2 * i < in->used) {
        size_t went = many ? post_many(in, i, l, &g) : post(in, i, l, &g);
        if (!went || g.answer > RAISED) differ(row, "an event is refused", i + 1);
        for (size_t k = 0; k < went; k++, i++) {
            const uint8_t *event = in->pairs + 2 * i;
            baseline_step(&u, lent, event, event_size(event[0]), &r);
            if (r.byte != moved[k]) differ(row, "a byte", i + 1);
            if (k + 1 < went && r.answer != TAKEN) differ(row, "bytes in one call", i + 1);
        }
        const uint8_t seen[] = {r.answer, r.given, r.byte, r.ready, r.exception, r.direction};
        if (memcmp(seen, &g, sizeof seen)) differ(row, "answer, byte or lines", i);
    }
    for (size_t d = 0; d < DRIVES; d++)
        if (memcmp(lent[d].bytes, others[d], l)) differ(row, "tapes at the end", i);
    restore();
}

// The whole input in each way: the selected drive and the tapes at the end.
void agree_end(const struct row *row, const struct input *in) {
    static const char *const names[WAYS] = {"baseline", "pace_core", "pace_unit", "glenoulty_step"};
    size_t selected = 0;
    for (enum way way = PLAIN; way < WAYS; way++) {
        restore();
        size_t at_end = run_way(way, in);
        if (way == PLAIN) {
            selected = at_end;
            keep_tapes();
        }
        if (at_end != selected) differ(row, names[way], in->used / 2);
        same_tapes(row, names[way]);
    }
    restore();
}

// The blocks of a row moved in each way: the selected drive, the bytes and the tapes at the end.
void agree_blocks(const struct row *row) {
    static const char *const names[MOVERS] = {"baseline", "two copies", "one call a block", "one call for eight",
                                              "one call on a core"};
    struct blocks b = blocks_of(row);
    uint8_t *first = others[0];
    size_t selected = 0;
    for (enum mover mover = EVENTS; mover < MOVERS; mover++) {
        restore();
        if (!b.given) memset(b.bytes, 0, b.length);
        size_t at_end = move_blocks(mover, &b);
        if (mover == EVENTS) {
            selected = at_end;
            memcpy(first, b.bytes, b.length);
            keep_tapes();
        }
        if (at_end != selected) differ(row, names[mover], b.length);
        if (memcmp(b.bytes, first, b.length)) differ(row, names[mover], b.length);
        same_tapes(row, names[mover]);
    }
    restore();
    free_blocks(&b);
}
