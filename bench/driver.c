// Prints the tables: the proved unit against plain C, on the same events, in the same run.
#include "bench.h"
#include <stdio.h>
#include <stdlib.h>
#include <string.h>

enum { SHORT = 65536, MIDDLE = 2097152, CABLE = 2000000 };

static const struct row rows[] = {
    {"a byte given, within a block", SHORT, 4000, EMPTY, make_given, true, 1, 3, 5},
    {"a byte taken, within a block", SHORT, 4000, BLOCKS, make_taken, true, 1, 3, 5},
    {"a block written: 512 bytes, its recording", MIDDLE, 4000, EMPTY, make_written, false, 1, 3, 5},
    {"a block read: 512 bytes", MIDDLE, 4000, BLOCKS, make_read, false, 1, 3, 5},
    {"READ STATUS and its six octets", SHORT, 250000, EMPTY, make_report, false, 1, 5, 5},
    {"SELECT", SHORT, 1000000, EMPTY, make_select, false, 1, 5, 5},
    {"a count event", SHORT, 500000, EMPTY, make_count, false, 1, 5, 5},
    {"READ FILE MARK over 16 MiB, each record", LONGEST, 8, BLOCKS, make_mark, false, LONGEST / BLOCK, 1.5, 1.5},
    {"ERASE of 16 MiB, each KiB", LONGEST, 8, BLOCKS, make_erase, false, LONGEST / 1024, 1.2, 1.2},
};
static const struct row mixed = {"a mixed trace", 16384, 200, EMPTY, make_mixed, false, 1, 0, 0};
static const struct row late = {"the end of a tape", BLOCK_ROOM, 200, EMPTY, make_late, false, 1, 0, 0};
static const struct row bad = {"a bad record", 16384, 200, BAD, make_bad, false, 1, 0, 0};
enum { ROWS = sizeof rows / sizeof rows[0] };

// The first two rows are a byte within a block, the next two are blocks: given, then taken.
enum { PAIR = 2 };

// A row of the second table: two sides of one measurement, and the greatest ratio that is allowed.
struct claim {
    const char *name;
    const struct times *t;
    size_t plain, proved;
    double bar;
};

// A row with that part of its things.
static struct row shortened(struct row row, size_t part) {
    row.times = row.times / part ? row.times / part : 1;
    return row;
}

// The ways agree on a shortened input after each event, and on the whole one at the end.
static void agree(struct row row, size_t part) {
    struct input in = {0};
    size_t few = row.times > 1000 ? 1000 : row.times > 100 ? 20 : 2;
    add_start(&in);
    row.make(&in, few, false);
    lend(&row, 0);
    agree_each(&row, &in, false);
    agree_each(&row, &in, true);
    in.used = 0;
    add_start(&in);
    row.make(&in, shortened(row, part).times, false);
    agree_end(&row, &in);
    free(in.pairs);
}

static void agree_all(size_t part) {
    for (size_t i = 0; i < ROWS; i++) agree(rows[i], part);
    agree(mixed, part);
    agree(late, part);
    agree(bad, part);
    for (size_t i = PAIR; i < 2 * PAIR; i++) {
        struct row row = shortened(rows[i], part);
        lend(&row, 0);
        agree_blocks(&row);
    }
    printf("Answers, bytes, lines and tapes agree in all %d rows, on a mixed trace, at the end of a tape and at a bad\n"
           "record, event by event and with many bytes in one call.\n\n", ROWS);
}

static void show_way(const struct times *t, size_t way) {
    const double *ns = t->ns[way];
    printf(" %.2f (%.2f to %.2f) |", median(t, way), ns[0], ns[t->rounds - 1]);
}

// A way of the proved unit: its time, and the ratio to the baseline.
static bool show_ratio(const struct times *t, enum way way, double bar) {
    double ratio = median(t, way) / median(t, PLAIN);
    show_way(t, way);
    printf(" %.2f |", ratio);
    return ratio <= bar;
}

static void show(const struct row *row, const struct times *t) {
    printf("| %s |", row->name);
    show_way(t, PLAIN);
    bool core = show_ratio(t, CORE, row->core_bar), unit = show_ratio(t, WHOLE, row->unit_bar);
    printf(" %g and %g | %s, %s |\n", row->core_bar, row->unit_bar, core ? "met" : "missed", unit ? "met" : "missed");
    fflush(stdout);
}

static void table(size_t rounds, size_t part, struct times *first) {
    printf("| row | C | core | ratio | unit | ratio | bar, core and unit | core, unit |\n"
           "|---|---|---|---|---|---|---|---|\n");
    for (size_t i = 0; i < ROWS; i++) {
        struct row row = shortened(rows[i], part);
        struct times t;
        lend(&row, 0);
        measure(&row, rounds, i < PAIR ? WAYS : BOARD, &t);
        show(&row, &t);
        if (i < PAIR) first[i] = t;
    }
}

static void show_claim(const struct claim *c) {
    double ratio = median(c->t, c->proved) / median(c->t, c->plain);
    printf("| %s |", c->name);
    show_way(c->t, c->plain);
    show_way(c->t, c->proved);
    printf(" %.3f | %g | %s |\n", ratio, c->bar, ratio <= c->bar ? "met" : "missed");
}

// The second table; a byte within a block was measured for the first.
static void many(size_t rounds, size_t part, const struct times *within) {
    struct times blocks[PAIR];
    const struct times *give = blocks, *take = blocks + 1;
    for (size_t i = 0; i < PAIR; i++) {
        struct row row = shortened(rows[PAIR + i], part);
        lend(&row, 0);
        measure_blocks(&row, rounds, &blocks[i]);
    }
    const struct claim claims[] = {
        {"a block written by glenoulty_give", give, EVENTS, CALLS, 0.15},
        {"a block read by glenoulty_take", take, EVENTS, CALLS, 0.15},
        {"a block written by glenoulty_give, against copies", give, COPIES, CALLS, 3},
        {"a block read by glenoulty_take, against copies", take, COPIES, CALLS, 3},
        {"a block of eight written by glenoulty_give, against copies", give, COPIES, EIGHTS, 3},
        {"a block of eight read by glenoulty_take, against copies", take, COPIES, EIGHTS, 3},
        {"a block written by give_bytes on a core", give, EVENTS, AT_ONCE, 0.1},
        {"a block read by take_bytes on a core", take, EVENTS, AT_ONCE, 0.1},
        {"a byte given by glenoulty_step, within a block", &within[0], PLAIN, BOARD, 4},
        {"a byte taken by glenoulty_step, within a block", &within[1], PLAIN, BOARD, 4},
    };
    printf("\nMany bytes in one call, and a byte by glenoulty_step. By glenoulty_give and glenoulty_take a block is one\n"
           "call, or eight are; on a core all blocks are one. C is event by event; against copies it is two plain copies\n"
           "of 512 bytes and the event of the last byte.\n\n"
           "| row | C | proved | ratio | bar | |\n|---|---|---|---|---|---|\n");
    for (size_t i = 0; i < sizeof claims / sizeof claims[0]; i++) show_claim(&claims[i]);
}

static void headroom(const struct times *first) {
    static const char *const names[WAYS] = {"plain C", "the step on a core", "the step on a unit", "glenoulty_step"};
    printf("\nHeadroom over a cable that moves %d bytes a second.\n\n"
           "| way | bytes given a second | times the cable | bytes taken a second | times the cable |\n"
           "|---|---|---|---|---|\n", CABLE);
    for (enum way way = PLAIN; way < WAYS; way++) {
        double give = 1e9 / median(&first[0], way), take = 1e9 / median(&first[1], way);
        printf("| %s | %.0f | %.1f | %.0f | %.1f |\n", names[way], give, give / CABLE, take, take / CABLE);
    }
}

int main(int count, char **words) {
    bool smoke = count > 1 && !strcmp(words[1], "--smoke");
    size_t part = smoke ? 1000 : 1;
    size_t rounds = smoke ? 1 : 9;
    struct times first[PAIR];
    agree_all(part);
    table(rounds, part, first);
    many(rounds, part, first);
    headroom(first);
    growth(smoke);
    return 0;
}
