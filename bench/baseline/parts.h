// What the files of the unit use of each other.
#ifndef BASELINE_PARTS_H
#define BASELINE_PARTS_H

#include "tape.h"

static inline void at_phase(struct unit *u, uint8_t phase, size_t place) {
    u->phase = phase;
    u->place = place;
}

// A command octet for the selected drive; true where it raised EXCEPTION.
bool baseline_command(struct unit *u, size_t d, struct tape t, uint8_t code);

// RESET, which raises EXCEPTION on all four drives.
bool baseline_reset(struct unit *u);

// The answer to an event that names a drive.
uint8_t baseline_slot(struct unit *u, uint8_t kind, uint8_t body);

#endif
