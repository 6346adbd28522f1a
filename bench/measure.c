// Takes the times of the ways side by side: each round runs all of them, beginning with another one each time.
#include "bench.h"
#include <stdlib.h>
#include <time.h>

// What is measured: nanoseconds of one way, and the things that they are for.
struct subject {
    double (*time_of)(const struct subject *s, size_t way);
    const struct input *whole, *less;
    const struct blocks *blocks;
    double things;
};

static double now(void) {
    struct timespec t;
    clock_gettime(CLOCK_MONOTONIC, &t);
    return (double)t.tv_sec * 1e9 + (double)t.tv_nsec;
}

static double time_of(enum way way, const struct input *in) {
    restore();
    double from = now();
    run_way(way, in);
    return now() - from;
}

static double time_of_events(const struct subject *s, size_t way) {
    double ns = time_of((enum way)way, s->whole);
    return s->less ? ns - time_of((enum way)way, s->less) : ns;
}

static double time_of_blocks(const struct subject *s, size_t way) {
    restore();
    double from = now();
    move_blocks((enum mover)way, s->blocks);
    return now() - from;
}

static int rising(const void *a, const void *b) {
    double x = *(const double *)a, y = *(const double *)b;
    return (x > y) - (x < y);
}

static void take_rounds(const struct subject *s, size_t rounds, size_t ways, struct times *t) {
    t->rounds = rounds;
    for (size_t k = 0; k < rounds; k++)
        for (size_t i = 0; i < ways; i++) {
            size_t way = (i + k) % ways;
            t->ns[way][k] = s->time_of(s, way) / s->things;
        }
    for (size_t way = 0; way < ways; way++) qsort(t->ns[way], rounds, sizeof(double), rising);
}

void measure(const struct row *row, size_t rounds, size_t ways, struct times *t) {
    struct input whole = {0}, less = {0};
    add_start(&whole);
    add_start(&less);
    double things = (double)row->make(&whole, row->times, false) * row->per;
    row->make(&less, row->times, true);
    struct subject s = {time_of_events, &whole, row->subtract ? &less : NULL, NULL, things};
    take_rounds(&s, rounds, ways, t);
    free(whole.pairs);
    free(less.pairs);
}

// The blocks of a row, each way of moving them.
void measure_blocks(const struct row *row, size_t rounds, struct times *t) {
    struct blocks b = blocks_of(row);
    struct subject s = {time_of_blocks, NULL, NULL, &b, (double)(b.length / BODY)};
    take_rounds(&s, rounds, MOVERS, t);
    free_blocks(&b);
}

double median(const struct times *t, size_t way) { return t->ns[way][t->rounds / 2]; }
