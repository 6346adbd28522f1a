// The records of a tape: what stands at the head, recording, passing, and the bits that tell of it.
#ifndef BASELINE_TAPE_H
#define BASELINE_TAPE_H

#include "unit.h"
#include <string.h>

// The kind bytes of records.
enum { KIND_END, KIND_BLOCK, KIND_MARK };

// What stands at an offset.
enum found { FOUND_BLOCK, FOUND_MARK, FOUND_END, FOUND_BAD, FOUND_UNKNOWN };

static inline bool room(size_t head, size_t need, size_t length) { return need <= length && head <= length - need; }

static inline enum found found_at(struct tape t, size_t head) {
    if (head >= t.length) return head == t.length ? FOUND_END : FOUND_BAD;
    switch (t.bytes[head]) {
    case KIND_BLOCK: return t.length - head >= BLOCK ? FOUND_BLOCK : FOUND_BAD;
    case KIND_MARK: return FOUND_MARK;
    case KIND_END: return FOUND_END;
    default: return FOUND_UNKNOWN;
    }
}

// EXCEPTION with a bit of octet 0.
static inline bool raise0(struct unit *u, size_t d, uint8_t bit) {
    u->latched0[d] |= bit;
    u->flags[d] |= EXCEPTION;
    return true;
}

// EXCEPTION with a bit of octet 1.
static inline bool raise1(struct unit *u, size_t d, uint8_t bit) {
    u->latched1[d] |= bit;
    u->flags[d] |= EXCEPTION;
    return true;
}

static inline void idle(struct unit *u, size_t d) {
    u->flags[d] &= (uint8_t)~BUSY;
    u->late[d] = 0;
}

// No room: EOM makes the drive Idle.
static inline bool no_room(struct unit *u, size_t d) {
    idle(u, d);
    return raise0(u, d, EOM);
}

// What a drive tells of a record that is no block: a mark is passed, and the drive is Idle.
static inline bool tell(struct unit *u, size_t d, enum found found) {
    idle(u, d);
    if (found == FOUND_END) return raise1(u, d, NDT);
    if (found == FOUND_BAD) return raise0(u, d, UDE);
    if (found == FOUND_UNKNOWN) return raise0(u, d, UDE | BNL);
    u->head[d] += 1;
    return raise0(u, d, FIL);
}

// The edge check; true where it raised EXCEPTION.
static inline bool edge(struct unit *u, size_t d, struct tape t) {
    enum found found = found_at(t, u->head[d]);
    return found == FOUND_BLOCK ? false : tell(u, d, found);
}

// The end of data behind a record that was made, where there is a byte for it.
static inline void made(struct unit *u, size_t d, struct tape t, size_t size) {
    size_t next = u->head[d] + size;
    if (next < t.length) t.bytes[next] = KIND_END;
    u->head[d] = next;
}

static inline void record_mark(struct unit *u, size_t d, struct tape t) {
    t.bytes[u->head[d]] = KIND_MARK;
    made(u, d, t, 1);
}

static inline void record_block(struct unit *u, size_t d, struct tape t) {
    t.bytes[u->head[d]] = KIND_BLOCK;
    memcpy(t.bytes + u->head[d] + 1, u->staging, BODY);
    made(u, d, t, BLOCK);
}

// READ FILE MARK: passes blocks, and tells what stopped it.
static inline bool pass_blocks(struct unit *u, size_t d, struct tape t) {
    enum found found;
    size_t head = u->head[d];
    while ((found = found_at(t, head)) == FOUND_BLOCK) head += BLOCK;
    u->head[d] = head;
    return tell(u, d, found);
}

#endif
