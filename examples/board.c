/* A small firmware over glenoulty.h: a strike is recorded and read back, a protected cartridge refuses, two kinds of bad
 * record are told apart, a record is kept over a loss of power. The first half is a board's own; in the second the host at the other end is played. */
#include "glenoulty.h"
#include <stdbool.h>
#include <stdio.h>
#include <string.h>

enum { DRIVES = 4, BLOCK = 512, RECORD = 1 + BLOCK, LENGTH = 16384, PIECE = 192 };

/* ---- the board */

/* All that a board holds: the unit's record and the one kept in flash, its cartridges, and what it drives on the cable. */
struct board {
    uint8_t record[GLENOULTY_SIZE];
    uint8_t flash[GLENOULTY_SIZE];
    uint8_t tapes[DRIVES][LENGTH];
    glenoulty_lines_shown pins;
    uint8_t data;
};

/* A board as it is switched on: with the record in flash if that is a good one, else with a fresh one. */
static bool start(struct board *b) {
    if (glenoulty_size() != sizeof b->record) return false; /* header and library are not of one version */
    if (glenoulty_lines(b->flash, sizeof b->flash, &b->pins) == GLENOULTY_TAKEN) {
        memcpy(b->record, b->flash, sizeof b->record);
        return true;
    }
    return glenoulty_fresh(b->record, sizeof b->record) == GLENOULTY_TAKEN &&
           glenoulty_lines(b->record, sizeof b->record, &b->pins) == GLENOULTY_TAKEN;
}

/* What a board lends in every call: its record and its cartridges. */
#define LENT(b) (b)->record, sizeof (b)->record, (b)->tapes[0], LENGTH, (b)->tapes[1], LENGTH, (b)->tapes[2], LENGTH, \
                (b)->tapes[3], LENGTH

/* The pins follow what came of a call. */
static void follow(struct board *b, const glenoulty_result *r) {
    b->pins.ready = r->ready;
    b->pins.exception = r->exception;
    b->pins.direction = r->direction;
    if (r->given) b->data = r->byte;
}

/* One event: the unit answers, then the pins follow. Firmware calls this for each edge of the cable or a slot. */
static glenoulty_result serve(struct board *b, const uint8_t *event, size_t length) {
    glenoulty_result r;
    glenoulty_step(LENT(b), event, length, &r);
    follow(b, &r);
    return r;
}

static size_t piece_of(size_t left) { return left < PIECE ? left : PIECE; }

/* Hands over what came by DMA, a piece at a time, until an answer is not 0: how many bytes went over. */
static size_t give_all(struct board *b, const uint8_t *bytes, size_t length, glenoulty_result *r) {
    size_t done = 0;
    do {
        done += glenoulty_give(LENT(b), bytes + done, piece_of(length - done), r);
        follow(b, r);
    } while (r->answer == GLENOULTY_TAKEN && done < length);
    return done;
}

/* Fetches what is to go by DMA in the same way: how many bytes came. */
static size_t take_all(struct board *b, uint8_t *bytes, size_t length, glenoulty_result *r) {
    size_t done = 0;
    do {
        done += glenoulty_take(LENT(b), bytes + done, piece_of(length - done), r);
        follow(b, r);
    } while (r->answer == GLENOULTY_TAKEN && done < length);
    return done;
}

/* ---- the host, and the hand at the slots */

static const char *const answers[] = {"taken",         "EXCEPTION", "out of step",         "wrong slot",
                                      "not an event", "no record", "a tape is too long"};

static void print_line(const char *what, uint8_t answer, const struct board *b) {
    printf("%-28s %u %-12s %c%c%c\n", what, (unsigned)answer, answers[answer], b->pins.ready ? 'R' : '-',
           b->pins.exception ? 'E' : '-', b->pins.direction ? 'D' : '-');
}

/* Sends an event, prints what came of it, and is true where that is what was wanted. */
static bool expect(struct board *b, const char *what, const uint8_t *event, size_t length, uint8_t wanted) {
    uint8_t answer = serve(b, event, length).answer;
    print_line(what, answer, b);
    if (answer != wanted) fprintf(stderr, "%s: answered %u, not %u\n", what, (unsigned)answer, (unsigned)wanted);
    return answer == wanted;
}

static bool plain(struct board *b, const char *what, uint8_t kind) { return expect(b, what, &kind, 1, GLENOULTY_TAKEN); }

static bool with_body(struct board *b, const char *what, uint8_t kind, uint8_t body, uint8_t wanted) {
    const uint8_t event[2] = {kind, body};
    return expect(b, what, event, sizeof event, wanted);
}

static bool order(struct board *b, const char *what, uint8_t octet, uint8_t wanted) {
    return with_body(b, what, GLENOULTY_COMMAND, octet, wanted);
}

/* READ STATUS and its six octets, which clear EXCEPTION; the first two are held to what is wanted. */
static bool status(struct board *b, uint8_t octet0, uint8_t octet1) {
    glenoulty_result r;
    uint8_t octets[6];
    if (!order(b, "READ STATUS", GLENOULTY_READ_STATUS, GLENOULTY_TAKEN)) return false;
    if (take_all(b, octets, sizeof octets, &r) != sizeof octets || r.answer != GLENOULTY_TAKEN) return false;
    printf("  octets %02X %02X, errors %u, underruns %u\n", octets[0], octets[1], octets[2] * 256u + octets[3],
           octets[4] * 256u + octets[5]);
    return octets[0] == octet0 && octets[1] == octet1;
}

/* A strike to record: any 512 bytes. */
static void make_strike(uint8_t strike[BLOCK]) {
    for (unsigned i = 0; i < BLOCK; i++) strike[i] = (uint8_t)(i * 7 + i / 256);
}

/* Gives a block, which is on the tape with its last byte. */
static bool give_block(struct board *b, const uint8_t block[BLOCK]) {
    glenoulty_result r;
    size_t went = give_all(b, block, BLOCK, &r);
    printf("  %u bytes given\n", (unsigned)went);
    return went == BLOCK && r.answer == GLENOULTY_TAKEN;
}

/* Asks for two blocks where a mark follows the first: EXCEPTION comes beside its last byte, and no byte behind it. */
static bool take_block(struct board *b, uint8_t blocks[2 * BLOCK]) {
    glenoulty_result r;
    size_t came = take_all(b, blocks, 2 * BLOCK, &r);
    printf("  %u bytes taken%s\n", (unsigned)came, r.answer == GLENOULTY_EXCEPTION ? ", then EXCEPTION" : "");
    return came == BLOCK && r.answer == GLENOULTY_EXCEPTION;
}

/* Two cartridges, the cable up, and the report that a drive wants after power on. */
static bool make_ready(struct board *b) {
    return with_body(b, "cartridge in 1", GLENOULTY_CARTRIDGE_IN, 1, GLENOULTY_TAKEN) &&
           with_body(b, "cartridge in 2, protected", GLENOULTY_CARTRIDGE_IN, 2 | GLENOULTY_PROTECTED, GLENOULTY_TAKEN) &&
           with_body(b, "cartridge in 1, once more", GLENOULTY_CARTRIDGE_IN, 1, GLENOULTY_WRONG_SLOT) &&
           plain(b, "ONLINE up", GLENOULTY_ONLINE) && status(b, 0xC0, 0x81) &&
           order(b, "SELECT 1", GLENOULTY_SELECT_1, GLENOULTY_TAKEN) && status(b, 0x00, 0x89);
}

static bool record_and_read(struct board *b) {
    uint8_t strike[BLOCK], back[2 * BLOCK];
    make_strike(strike);
    bool done = order(b, "WRITE", GLENOULTY_WRITE, GLENOULTY_TAKEN) && give_block(b, strike) &&
                order(b, "WRITE FILE MARK", GLENOULTY_WRITE_FILE_MARK, GLENOULTY_TAKEN) &&
                order(b, "BOT", GLENOULTY_BOT, GLENOULTY_TAKEN) && order(b, "READ", GLENOULTY_READ, GLENOULTY_TAKEN) &&
                take_block(b, back) && status(b, 0x81, 0x00);
    if (!done) return false;
    bool same = memcmp(strike, back, BLOCK) == 0;
    puts(same ? "  the strike came back as it was" : "  the strike came back changed");
    return same;
}

/* A cartridge whose plug is set refuses WRITE, and keeps every byte. */
static bool protected_refuses(struct board *b) {
    uint8_t before[LENGTH];
    memcpy(before, b->tapes[2], LENGTH);
    bool refused = order(b, "SELECT 2", GLENOULTY_SELECT_2, GLENOULTY_TAKEN) && status(b, 0x90, 0x89) &&
                   order(b, "WRITE", GLENOULTY_WRITE, GLENOULTY_EXCEPTION) && status(b, 0x90, 0x88);
    return refused && memcmp(before, b->tapes[2], LENGTH) == 0;
}

/* From the beginning to the next mark, of which there is none: the report tells what is met instead. */
static bool search(struct board *b, uint8_t octet0, const char *met) {
    bool told = order(b, "BOT", GLENOULTY_BOT, GLENOULTY_TAKEN) &&
                order(b, "READ FILE MARK", GLENOULTY_READ_FILE_MARK, GLENOULTY_EXCEPTION) && status(b, octet0, 0x00);
    if (told) printf("  %s\n", met);
    return told;
}

/* An image that was cut short, and then a page that reads as something else: UDE both times, and BNL tells which. */
static bool bad_records_told(struct board *b) {
    for (size_t at = 0; at < LENGTH; at += RECORD) b->tapes[3][at] = 1; /* blocks; the last runs past the end */
    bool ready = with_body(b, "cartridge in 3", GLENOULTY_CARTRIDGE_IN, 3, GLENOULTY_TAKEN) &&
                 order(b, "SELECT 3", GLENOULTY_SELECT_3, GLENOULTY_TAKEN) && status(b, 0x00, 0x89);
    if (!ready || !search(b, GLENOULTY_ST0 | GLENOULTY_UDE, "the image was cut short")) return false;
    b->tapes[3][5 * RECORD] = 0xE7;
    return search(b, GLENOULTY_ST0 | GLENOULTY_UDE | GLENOULTY_BNL, "a page is worn");
}

/* Takes one byte by an event of its own: the host reads it off the data pins. */
static bool take(struct board *b, uint8_t *byte) {
    const uint8_t event[1] = {GLENOULTY_TAKE};
    glenoulty_result r = serve(b, event, sizeof event);
    *byte = b->data;
    return r.answer == GLENOULTY_TAKEN && r.given == 1;
}

/* Power fails in the middle of a report: the record goes to flash, and the report goes on from there. */
static bool survives_power_loss(struct board *b) {
    glenoulty_result r;
    uint8_t octets[6];
    if (!order(b, "READ STATUS", GLENOULTY_READ_STATUS, GLENOULTY_TAKEN) || !take(b, octets)) return false;
    memcpy(b->flash, b->record, sizeof b->flash);
    memset(b->record, 0, sizeof b->record);
    if (!start(b) || take_all(b, octets + 1, 5, &r) != 5 || r.answer != GLENOULTY_TAKEN) return false;
    puts("  power lost and back: six octets taken");
    return true;
}

/* A buffer that holds no record is answered 5 and left alone; with none in flash either, the board starts afresh. */
static bool bad_record_refused(struct board *b) {
    const uint8_t event[1] = {GLENOULTY_RESET};
    memset(b->record, 0xFF, sizeof b->record);
    memset(b->flash, 0xFF, sizeof b->flash);
    return expect(b, "RESET, but no record", event, sizeof event, GLENOULTY_NO_RECORD) &&
           memcmp(b->record, b->flash, sizeof b->record) == 0 && start(b) &&
           plain(b, "ONLINE up, on a fresh unit", GLENOULTY_ONLINE);
}

int main(void) {
    static struct board b; /* zeros: erased cartridges, and no record in flash */
    if (!start(&b)) {
        fputs("the unit does not start: header and library differ\n", stderr);
        return 1;
    }
    printf("a record has %u bytes\n", (unsigned)glenoulty_size());
    print_line("power on", GLENOULTY_TAKEN, &b);
    bool good = make_ready(&b) && record_and_read(&b) && protected_refuses(&b) && bad_records_told(&b) &&
                survives_power_loss(&b) && bad_record_refused(&b);
    puts(good ? "all as it should be" : "something is wrong");
    return good ? 0 : 1;
}
