// The tape unit in plain C, its record changed in place: what bench/ measures the proved unit against.
#ifndef BASELINE_UNIT_H
#define BASELINE_UNIT_H

#include <stdbool.h>
#include <stddef.h>
#include <stdint.h>

enum { DRIVES = 4, BODY = 512, BLOCK = 513, OCTETS = 6, LONGEST = 16777216 };

// The room that a block asks for, and a late one; and how many late blocks a WRITE may take.
enum { BLOCK_ROOM = 1541, LATE_ROOM = 514, LATE_BLOCKS = 2 };

// The answers, by their numbers.
enum { TAKEN, RAISED, OUT_OF_STEP, WRONG_SLOT, MALFORMED, IMPOSSIBLE, TOO_LONG };

// The kinds of events, from 1 on.
enum { COMMAND = 1, GIVE, TAKE, ONLINE, OFFLINE, RESET, SLOT_IN, SLOT_OUT, ERROR, UNDERRUN };

enum { REST, TAKING, GIVING, STATUS };

// What a drive's byte of flags holds; a drive with neither WRITING nor READING is Idle.
enum { LOADED = 1, PROTECTED = 2, WRITING = 4, READING = 8, EXCEPTION = 16, BUSY = WRITING | READING };

// Bits of octet 0, then of octet 1.
enum { ST0 = 0x80, CNI = 0x40, WRP = 0x10, EOM = 0x08, UDE = 0x04, BNL = 0x02, FIL = 0x01 };
enum { ST1 = 0x80, ILL = 0x40, NDT = 0x20, BOM = 0x08, POR = 0x01 };

// The unit: one array for each field of a drive, so that four drives are looked at in one word.
struct unit {
    size_t head[DRIVES];
    uint8_t flags[DRIVES];
    uint8_t late[DRIVES]; // late blocks still allowed
    uint8_t latched0[DRIVES];
    uint8_t latched1[DRIVES];
    uint16_t errors[DRIVES];
    uint16_t underruns[DRIVES];
    size_t selected;
    size_t place; // bytes of the block so far, or octets outstanding; 0 at Rest
    uint8_t phase;
    bool online;
    uint8_t octets[OCTETS];
    uint8_t staging[BODY];
};

struct tape {
    uint8_t *bytes;
    size_t length;
};

// What an event is answered with; `given` flags the byte.
struct result {
    uint8_t answer, given, byte, ready, exception, direction;
};

void baseline_fresh(struct unit *u);
void baseline_step(struct unit *u, const struct tape tapes[DRIVES], const uint8_t *event, size_t length,
                   struct result *r);

#endif
