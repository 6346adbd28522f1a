// The ways of running a unit, and the tapes that are lent to it.
#include "bench.h"
#include "../include/glenoulty.h"
#include <string.h>

static uint8_t memory[DRIVES + 1][LONGEST];
struct tape lent[DRIVES] = {{memory[0], 0}, {memory[1], 0}, {memory[2], 0}, {memory[3], 0}};
uint8_t *kept = memory[DRIVES]; // tape 0 as it was recorded before the events

// Makes the tapes of a row; with ONE_MARK there is a mark at the first record at or behind `mark`.
void lend(const struct row *row, size_t mark) {
    size_t at = 0;
    memset(kept, row->recorded == EMPTY || row->recorded == BAD ? 0xEE : 0, row->length);
    if (row->recorded == EMPTY) kept[0] = 0;
    while (row->recorded != EMPTY && at + BLOCK <= row->length) {
        if (row->recorded == ONE_MARK && at >= mark) {
            kept[at++] = 2;
            mark = LONGEST;
            continue;
        }
        kept[at] = 1;
        for (size_t i = 1; i < BLOCK; i++) kept[at + i] = (uint8_t)(at / BLOCK + i);
        at += BLOCK;
        if (row->recorded == BAD) break;
    }
    for (size_t d = 0; d < DRIVES; d++) lent[d].length = row->length;
    for (size_t d = 1; d < DRIVES; d++) memset(lent[d].bytes, 0, row->length);
    restore();
}

// Drive 0 alone is recorded on, but by the mixed trace, which records the same on the others in each run.
void restore(void) { memcpy(lent[0].bytes, kept, lent[0].length); }

// The bytes of an event.
size_t event_size(uint8_t kind) { return kind >= TAKE && kind <= RESET ? 1 : 2; }

// A fresh unit of the C over events.
void run_plain(struct unit *u, const struct input *in) {
    struct result r;
    baseline_fresh(u);
    for (size_t i = 0; i + 1 < in->used; i += 2) baseline_step(u, lent, in->pairs + i, event_size(in->pairs[i]), &r);
}

// A fresh record over events, as firmware calls the unit.
void run_board(uint8_t *record, const struct input *in) {
    glenoulty_result r;
    glenoulty_fresh(record, GLENOULTY_SIZE);
    for (size_t i = 0; i + 1 < in->used; i += 2)
        glenoulty_step(record, GLENOULTY_SIZE, TAPES, in->pairs + i, event_size(in->pairs[i]), &r);
}

static size_t plain(const struct input *in) {
    struct unit u;
    run_plain(&u, in);
    return u.selected;
}

// The number of the selected drive stands in byte 1 of the record.
static size_t board(const struct input *in) {
    static uint8_t record[GLENOULTY_SIZE];
    run_board(record, in);
    return record[1];
}

size_t run_way(enum way way, const struct input *in) {
    switch (way) {
    case PLAIN: return plain(in);
    case CORE: return pace_core(TAPES, in->pairs, in->used);
    case WHOLE: return pace_unit(TAPES, in->pairs, in->used);
    default: return board(in);
    }
}
