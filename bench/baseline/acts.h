// What the host does at the selected drive besides commands: bytes given and taken, ONLINE.
#ifndef BASELINE_ACTS_H
#define BASELINE_ACTS_H

#include "parts.h"

// The 512th byte: the block is recorded where there is room; the last late one ends the WRITE.
static inline bool store(struct unit *u, size_t d, struct tape t) {
    uint8_t late = u->late[d];
    size_t need = late ? LATE_ROOM : BLOCK_ROOM;
    at_phase(u, REST, 0);
    if (!room(u->head[d], need, t.length)) return no_room(u, d);
    record_block(u, d, t);
    if (late == 1 || !room(u->head[d], need, t.length)) return no_room(u, d);
    if (late) u->late[d] = late - 1;
    return false;
}

// A byte given; the place is 0 at Rest.
static inline bool give(struct unit *u, size_t d, struct tape t, uint8_t byte) {
    size_t n = u->place;
    u->staging[n] = byte;
    if (n == BODY - 1) return store(u, d, t);
    at_phase(u, TAKING, n + 1);
    return false;
}

static inline void hand(struct result *r, uint8_t byte) {
    r->given = 1;
    r->byte = byte;
}

// An octet of the report.
static inline bool take_octet(struct unit *u, struct result *r) {
    size_t left = u->place - 1;
    hand(r, u->octets[OCTETS - 1 - left]);
    at_phase(u, left ? STATUS : REST, left);
    return false;
}

// The first byte of a block, or what the edge check finds.
static inline bool take_first(struct unit *u, size_t d, struct tape t, struct result *r) {
    if (edge(u, d, t)) return true;
    hand(r, t.bytes[u->head[d] + 1]);
    at_phase(u, GIVING, 1);
    return false;
}

// A later byte; behind the last one stands the edge check.
static inline bool take_next(struct unit *u, size_t d, struct tape t, struct result *r) {
    size_t n = u->place, head = u->head[d];
    enum found found = found_at(t, head);
    if (found != FOUND_BLOCK) {
        at_phase(u, REST, 0);
        return tell(u, d, found == FOUND_UNKNOWN ? FOUND_UNKNOWN : FOUND_BAD);
    }
    hand(r, t.bytes[head + 1 + n]);
    if (n < BODY - 1) {
        u->place = n + 1;
        return false;
    }
    at_phase(u, REST, 0);
    u->head[d] = head + BLOCK;
    return edge(u, d, t);
}

static inline bool take(struct unit *u, size_t d, struct tape t, struct result *r) {
    if (u->phase == GIVING) return take_next(u, d, t, r);
    return u->phase == STATUS ? take_octet(u, r) : take_first(u, d, t, r);
}

// ONLINE dropped: the mark that ends a recording, and the way home.
static inline bool drop(struct unit *u, size_t d, struct tape t) {
    uint8_t flags = u->flags[d];
    if (!u->online) return false;
    u->online = false;
    if (!(flags & (EXCEPTION | LOADED))) return false;
    if (!(flags & EXCEPTION)) {
        if ((flags & WRITING) && !room(u->head[d], 1, t.length)) return no_room(u, d);
        if (flags & WRITING) record_mark(u, d, t);
        u->head[d] = 0;
    }
    idle(u, d);
    return false;
}

#endif
