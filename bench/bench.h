// What the files of the benchmark use of each other.
#ifndef BENCH_H
#define BENCH_H

#include "baseline/unit.h"

// The most rounds, and the events of one turn of the mixed trace.
enum { ROUNDS = 15, MIXED = 1046 };

// The ways of running a fresh unit over events.
enum way { PLAIN, CORE, WHOLE, BOARD, WAYS };

// The ways of moving blocks: by the C event by event, and by two plain copies with the block's end; by one call of the
// archive for each block and for eight of them, and by one call on a core for all of them.
enum mover { EVENTS, COPIES, CALLS, EIGHTS, AT_ONCE, MOVERS };

// Room in a table of times.
enum { SIDES = 5 };
_Static_assert((int)WAYS <= (int)SIDES && (int)MOVERS <= (int)SIDES, "a table of times has room for every way");

// Events of two bytes each, a kind and a body; the body is no part of the kinds 03 to 06.
struct input {
    uint8_t *pairs;
    size_t used, room;
};

// The tape of drive 0 before the events: the end of data with old bytes behind it, blocks, blocks around one mark, one
// block with an unknown kind behind it.
enum recorded { EMPTY, BLOCKS, ONE_MARK, BAD };

// A row of the table: `make` adds the events that are measured, or those that are subtracted, and returns how many
// things they are.
struct row {
    const char *name;
    size_t length, times;
    enum recorded recorded;
    size_t (*make)(struct input *in, size_t times, bool less);
    bool subtract;
    double per; // what a thing is divided by
    double core_bar, unit_bar;
};

// Blocks to be moved: the events before them, up to the order, and their bytes one after the other.
struct blocks {
    struct input before;
    uint8_t *bytes;
    size_t length;
    bool given; // by the host, else taken
};

// What came of a row: nanoseconds for each thing, the rounds in rising order.
struct times {
    double ns[SIDES][ROUNDS];
    size_t rounds;
};

// The archive of the crate pace: a fresh core, or a unit, runs the pairs, and then moves all bytes by one call.
#define LENT uint8_t *, size_t, uint8_t *, size_t, uint8_t *, size_t, uint8_t *, size_t
uint8_t pace_core(LENT, const uint8_t *pairs, size_t pairs_length);
uint8_t pace_unit(LENT, const uint8_t *pairs, size_t pairs_length);
uint8_t pace_give(LENT, const uint8_t *pairs, size_t pairs_length, const uint8_t *bytes, size_t bytes_length);
uint8_t pace_take(LENT, const uint8_t *pairs, size_t pairs_length, uint8_t *bytes, size_t bytes_length);

// inputs.c
void add(struct input *in, uint8_t kind, uint8_t body);
void add_report(struct input *in);
void add_start(struct input *in);
size_t make_given(struct input *in, size_t times, bool less);
size_t make_taken(struct input *in, size_t times, bool less);
size_t make_written(struct input *in, size_t times, bool less);
size_t make_read(struct input *in, size_t times, bool less);
size_t make_report(struct input *in, size_t times, bool less);
size_t make_select(struct input *in, size_t times, bool less);
size_t make_count(struct input *in, size_t times, bool less);
size_t make_mark(struct input *in, size_t times, bool less);
size_t make_erase(struct input *in, size_t times, bool less);
size_t make_mixed(struct input *in, size_t times, bool less);
size_t make_late(struct input *in, size_t times, bool less);
size_t make_bad(struct input *in, size_t times, bool less);
size_t make_written_on(struct input *in, size_t times, bool less);
size_t make_read_on(struct input *in, size_t times, bool less);

// ways.c: the four tapes that are lent, and a run over them
extern struct tape lent[DRIVES];
extern uint8_t *kept;
#define TAPES \
    lent[0].bytes, lent[0].length, lent[1].bytes, lent[1].length, lent[2].bytes, lent[2].length, lent[3].bytes, \
        lent[3].length
void lend(const struct row *row, size_t mark);
void restore(void);
size_t event_size(uint8_t kind);
void run_plain(struct unit *u, const struct input *in);
void run_board(uint8_t *record, const struct input *in);
size_t run_way(enum way way, const struct input *in);

// many.c: the blocks of a row, to be freed, and a run that moves them
struct blocks blocks_of(const struct row *row);
void free_blocks(struct blocks *b);
size_t move_blocks(enum mover mover, const struct blocks *b);

// agree.c: ends the program where two ways differ
void agree_each(const struct row *row, const struct input *in, bool many);
void agree_end(const struct row *row, const struct input *in);
void agree_blocks(const struct row *row);

// measure.c
void measure(const struct row *row, size_t rounds, size_t ways, struct times *t);
void measure_blocks(const struct row *row, size_t rounds, struct times *t);
double median(const struct times *t, size_t way);

// growth.c
void growth(bool smoke);

#endif
