// Power on, RESET, and the events that name a drive.
#include "parts.h"

static void power_on(struct unit *u, size_t d) {
    u->head[d] = 0;
    idle(u, d);
    u->flags[d] |= EXCEPTION;
    u->latched0[d] = 0;
    u->latched1[d] = POR;
    u->errors[d] = u->underruns[d] = 0;
}

// RESET: cartridges, plugs, tapes, the level, staging and octets stay.
bool baseline_reset(struct unit *u) {
    for (size_t d = 0; d < DRIVES; d++) power_on(u, d);
    u->selected = 0;
    at_phase(u, REST, 0);
    return true;
}

void baseline_fresh(struct unit *u) {
    memset(u, 0, sizeof *u);
    baseline_reset(u);
}

static bool pull(struct unit *u, size_t d) {
    u->head[d] = 0;
    idle(u, d);
    u->flags[d] = 0;
    if (d == u->selected && u->phase != STATUS) at_phase(u, REST, 0);
    return raise0(u, d, CNI);
}

static void count(uint16_t *counter) { *counter += *counter < UINT16_MAX; }

// An event that names a drive: its answer.
uint8_t baseline_slot(struct unit *u, uint8_t kind, uint8_t body) {
    size_t d = body & 3;
    bool loaded = u->flags[d] & LOADED;
    if (loaded == (kind == SLOT_IN)) return WRONG_SLOT;
    switch (kind) {
    case SLOT_IN:
        u->flags[d] |= body & 0x80 ? LOADED | PROTECTED : LOADED;
        u->head[d] = 0;
        return TAKEN;
    case SLOT_OUT: return pull(u, d) ? RAISED : TAKEN;
    case ERROR: count(&u->errors[d]); return TAKEN;
    default: count(&u->underruns[d]); return TAKEN;
    }
}
