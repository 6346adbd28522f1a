// The cost of an event against the length of the tapes, the place of the head and the events before it.
#include "bench.h"
#include <stdio.h>

enum { KIB = 1024, MIB = 1048576 };

static size_t rounds, part;

// The medians of one measurement: the core, then the unit. Each is divided by `per`.
static void cell_of(struct row row, size_t mark, double per) {
    struct times t;
    row.times = row.times / part ? row.times / part : 1;
    row.per = per;
    lend(&row, mark);
    measure(&row, rounds, BOARD, &t);
    printf(" %.1f, %.1f |", median(&t, CORE), median(&t, WHOLE));
    fflush(stdout);
}

static void cell(struct row row, size_t mark) { cell_of(row, mark, 1); }

// In microseconds.
static void order_cell(struct row row) { cell_of(row, 0, 1000); }

static void size(size_t bytes) {
    if (bytes < MIB) printf("| %zu KiB |", bytes / KIB);
    else printf("| %zu MiB |", bytes / MIB);
}

static void by_length(void) {
    printf("\nGrowth with the length of the tapes: core, unit, in ns; the last two columns in microseconds an order.\n\n"
           "| length | byte given | byte taken | READ STATUS, six octets | SELECT | READ FILE MARK | ERASE |\n"
           "|---|---|---|---|---|---|---|\n");
    for (size_t l = KIB; l <= LONGEST; l *= l < MIB ? 32 : 16) {
        size_t few = l < 32 * KIB ? 2000 : 1 + 4 * (size_t)LONGEST / l;
        size(l);
        if (l < BLOCK_ROOM) printf(" no room |");
        else cell((struct row){.length = l, .times = 1000, .make = make_given, .subtract = true}, 0);
        cell((struct row){.length = l, .times = 1000, .recorded = BLOCKS, .make = make_taken, .subtract = true}, 0);
        cell((struct row){.length = l, .times = 50000, .make = make_report}, 0);
        cell((struct row){.length = l, .times = 400000, .make = make_select}, 0);
        struct row two = {.length = l, .times = few, .recorded = BLOCKS, .make = make_mark, .subtract = true};
        order_cell(two);
        two.make = make_erase;
        order_cell(two);
        printf("\n");
    }
}

static void by_head(void) {
    printf("\nGrowth with the place of the head on a tape of 16 MiB: core, unit, in ns.\n\n"
           "| head at | byte given, blocks recorded | byte taken, blocks read |\n|---|---|---|\n");
    for (size_t at = 0; at < LONGEST; at += 5 * MIB) {
        struct row row = {.length = LONGEST, .times = 1000, .recorded = ONE_MARK, .make = make_written_on};
        row.subtract = true;
        size(at);
        cell(row, at);
        row.make = make_read_on;
        cell(row, at);
        printf("\n");
    }
}

static void by_events(void) {
    printf("\nGrowth with the events run: core, unit, in ns an event of a mixed trace on tapes of 16 KiB.\n\n"
           "| events | an event |\n|---|---|\n");
    for (size_t times = 10; times <= 10000; times *= 10) {
        struct row row = {.length = 16 * KIB, .times = times, .make = make_mixed};
        printf("| %zu |", (times / part ? times / part : 1) * MIXED);
        cell(row, 0);
        printf("\n");
    }
}

void growth(bool smoke) {
    rounds = smoke ? 1 : 5;
    part = smoke ? 1000 : 1;
    by_length();
    by_head();
    by_events();
}
