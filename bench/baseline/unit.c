// One event: what refuses it, in the order of the answers, then what it does.
#include "acts.h"

// Whether a number is above the longest tape: four at once, and one by one only if that cannot tell.
static inline bool above(size_t a, size_t b, size_t c, size_t d) {
    if ((a | b | c | d) <= LONGEST) return false;
    return a > LONGEST || b > LONGEST || c > LONGEST || d > LONGEST;
}

// Whether a drive is protected or busy while empty, or Writing while protected: the flags of all four in one word.
static inline bool flags_clash(const struct unit *u) {
    uint32_t w;
    memcpy(&w, u->flags, sizeof w);
    uint32_t plug = w / PROTECTED, writes = w / WRITING, reads = w / READING;
    return ((((plug | writes | reads) & ~w) | (writes & plug)) & 0x01010101u) != 0;
}

// Whether a drive allows more than two late blocks, or any while it is not Writing; mostly none of the four does.
static inline bool late_clashes(const struct unit *u) {
    uint32_t w;
    memcpy(&w, u->late, sizeof w);
    if (w == 0) return false;
    for (size_t d = 0; d < DRIVES; d++)
        if (u->late[d] > (u->flags[d] & WRITING ? LATE_BLOCKS : 0)) return true;
    return false;
}

static inline bool phase_clashes(const struct unit *u) {
    switch (u->phase) {
    case REST: return false;
    case TAKING: return u->place - 1 >= BODY - 1 || !(u->flags[u->selected] & WRITING);
    case GIVING: return u->place - 1 >= BODY - 1 || !(u->flags[u->selected] & READING);
    default: return u->place - 1 >= OCTETS;
    }
}

// Answer 5: a record that cannot be.
static inline bool impossible(const struct unit *u) {
    return u->selected >= DRIVES || above(u->head[0], u->head[1], u->head[2], u->head[3]) || flags_clash(u) ||
           late_clashes(u) || phase_clashes(u);
}

// Answer 4: no event at all.
static inline bool malformed(const uint8_t *event, size_t length) {
    if (length == 0 || event[0] == 0 || event[0] > UNDERRUN) return true;
    if (event[0] >= TAKE && event[0] <= RESET) return length != 1;
    if (length != 2) return true;
    if (event[0] < SLOT_IN) return false;
    return (event[0] == SLOT_IN ? event[1] & 0x7F : event[1]) >= DRIVES;
}

// Answer 2 for what the host does.
static inline bool out_of_step(const struct unit *u, uint8_t kind) {
    uint8_t flags = u->flags[u->selected];
    if (kind == GIVE) return (flags & (WRITING | EXCEPTION)) != WRITING || u->phase > TAKING;
    if (kind != TAKE) return u->phase != REST;
    return u->phase == REST ? (flags & (READING | EXCEPTION)) != READING : u->phase == TAKING;
}

// What the host does at the selected drive; true where it raised EXCEPTION.
static inline bool act(struct unit *u, const struct tape *tapes, const uint8_t *event, struct result *r) {
    size_t d = u->selected;
    switch (event[0]) {
    case GIVE: return give(u, d, tapes[d], event[1]);
    case TAKE: return take(u, d, tapes[d], r);
    case COMMAND: return baseline_command(u, d, tapes[d], event[1]);
    case ONLINE: u->online = true; return false;
    default: return drop(u, d, tapes[d]);
    }
}

static inline uint8_t answer(struct unit *u, const struct tape *t, const uint8_t *event, size_t length,
                             struct result *r) {
    if (above(t[0].length, t[1].length, t[2].length, t[3].length)) return TOO_LONG;
    if (malformed(event, length)) return MALFORMED;
    if (event[0] >= SLOT_IN) return baseline_slot(u, event[0], event[1]);
    if (event[0] == RESET) return baseline_reset(u) ? RAISED : TAKEN;
    if (out_of_step(u, event[0])) return OUT_OF_STEP;
    return act(u, t, event, r) ? RAISED : TAKEN;
}

static inline void show_lines(const struct unit *u, struct result *r) {
    uint8_t flags = u->flags[u->selected];
    bool up = flags & EXCEPTION, status = u->phase == STATUS;
    r->exception = up;
    r->ready = !up && (status || u->phase == REST);
    r->direction = status || (!up && (flags & READING));
}

void baseline_step(struct unit *u, const struct tape tapes[DRIVES], const uint8_t *event, size_t length,
                   struct result *r) {
    *r = (struct result){0};
    if (impossible(u)) {
        r->answer = IMPOSSIBLE;
        return;
    }
    r->answer = answer(u, tapes, event, length, r);
    show_lines(u, r);
}
