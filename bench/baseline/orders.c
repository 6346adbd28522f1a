// Command octets: the tests that an order has to pass, and what each order does.
#include "parts.h"

enum {
    SELECT_0 = 0x01,
    SELECT_1 = 0x02,
    SELECT_2 = 0x04,
    SELECT_3 = 0x08,
    TO_BOT = 0x21,
    ERASE = 0x22,
    INITIALIZATION = 0x24,
    WRITE = 0x40,
    WRITE_MARK = 0x60,
    READ = 0x80,
    READ_MARK = 0xA0,
    READ_STATUS = 0xC0
};

// What an order asks for: a known code, ONLINE, a cartridge, an open one; and the modes other than Idle that take it.
enum { KNOWN = 1, CABLE = 2, CARTRIDGE = 4, OPEN = 8, IN_WRITING = 16, IN_READING = 32 };

static const uint8_t needs[256] = {
    [SELECT_0] = KNOWN,
    [SELECT_1] = KNOWN,
    [SELECT_2] = KNOWN,
    [SELECT_3] = KNOWN,
    [TO_BOT] = KNOWN | CARTRIDGE,
    [ERASE] = KNOWN | CARTRIDGE | OPEN,
    [INITIALIZATION] = KNOWN | CARTRIDGE,
    [WRITE] = KNOWN | CABLE | CARTRIDGE | OPEN,
    [WRITE_MARK] = KNOWN | CABLE | CARTRIDGE | OPEN | IN_WRITING,
    [READ] = KNOWN | CABLE | CARTRIDGE,
    [READ_MARK] = KNOWN | CABLE | CARTRIDGE | IN_READING,
    [READ_STATUS] = KNOWN | IN_WRITING | IN_READING,
};

// Tests 1 to 4: an order that is illegal now.
static bool illegal(const struct unit *u, uint8_t flags, uint8_t code, uint8_t need) {
    if ((flags & EXCEPTION) && code != READ_STATUS) return true;
    if (!(need & KNOWN)) return true;
    if ((flags & WRITING) && !(need & IN_WRITING)) return true;
    if ((flags & READING) && !(need & IN_READING)) return true;
    return (need & CABLE) && !u->online;
}

// READ STATUS: the six octets are made, then what they tell is cleared.
static bool report(struct unit *u, size_t d) {
    uint8_t flags = u->flags[d];
    uint8_t zero = u->latched0[d], one = u->latched1[d];
    if (!(flags & LOADED)) zero |= CNI;
    if (flags & PROTECTED) zero |= WRP;
    if ((flags & LOADED) && u->head[d] == 0) one |= BOM;
    u->octets[0] = zero ? zero | ST0 : 0;
    u->octets[1] = one ? one | ST1 : 0;
    u->octets[2] = (uint8_t)(u->errors[d] >> 8);
    u->octets[3] = (uint8_t)u->errors[d];
    u->octets[4] = (uint8_t)(u->underruns[d] >> 8);
    u->octets[5] = (uint8_t)u->underruns[d];
    u->latched0[d] = u->latched1[d] = 0;
    u->errors[d] = u->underruns[d] = 0;
    u->flags[d] = flags & (uint8_t)~EXCEPTION;
    u->phase = STATUS;
    u->place = OCTETS;
    return false;
}

// Every order but those of the file marks, once its tests are passed; true where it raised EXCEPTION.
static bool carry_out(struct unit *u, size_t d, struct tape t, uint8_t code) {
    switch (code) {
    case SELECT_0: u->selected = 0; return false;
    case SELECT_1: u->selected = 1; return false;
    case SELECT_2: u->selected = 2; return false;
    case SELECT_3: u->selected = 3; return false;
    case ERASE: memset(t.bytes, 0, t.length); u->head[d] = 0; return false;
    case WRITE:
        if (!room(u->head[d], LATE_ROOM, t.length)) return no_room(u, d);
        u->flags[d] |= WRITING;
        u->late[d] = room(u->head[d], BLOCK_ROOM, t.length) ? 0 : LATE_BLOCKS;
        return false;
    case READ: u->flags[d] |= READING; return edge(u, d, t);
    case READ_STATUS: return report(u, d);
    default: u->head[d] = 0; return false; // BOT and INITIALIZATION
    }
}

// WRITE FILE MARK, once its tests are passed.
static bool write_mark(struct unit *u, size_t d, struct tape t) {
    if (!room(u->head[d], 1, t.length)) return no_room(u, d);
    record_mark(u, d, t);
    idle(u, d);
    return false;
}

// A command octet; true where it raised EXCEPTION.
bool baseline_command(struct unit *u, size_t d, struct tape t, uint8_t code) {
    uint8_t flags = u->flags[d], need = needs[code];
    if (illegal(u, flags, code, need)) return raise1(u, d, ILL);
    if ((need & CARTRIDGE) && !(flags & LOADED)) return raise0(u, d, CNI);
    if ((need & OPEN) && (flags & PROTECTED)) return raise0(u, d, 0);
    if (code == WRITE_MARK) return write_mark(u, d, t);
    if (code == READ_MARK) return pass_blocks(u, d, t);
    return carry_out(u, d, t, code);
}
