/* Puts frames to the tape unit and writes what came out. README.md has the layout of frames and replies.
 *
 * Exit status: 0 at the end of the input; 1 input or output failed; 2 a malformed frame; 3 the library wrote where
 * nothing was lent to it. */
#include "glenoulty.h"

#include <stdarg.h>
#include <stdint.h>
#include <stdio.h>
#include <stdlib.h>
#include <string.h>

#define TAPES 4
/* The longest tape, and the longest record and the most bytes to give or to take that a frame may have. */
#define LONGEST_LENT (GLENOULTY_LONGEST + 2048u)
#define LONGEST_BUFFER 65536u
/* What follows each buffer and has to stay as it is. */
#define GUARD 2048u
#define GUARD_BYTE 0xA5

/* A lent tape; every byte of the buffer is 0 between two frames. */
static struct {
    uint8_t *bytes;
    uint32_t length;
} tapes[TAPES];

/* A buffer of the length that a frame says, and what nobody may write after it. */
struct buffer {
    uint8_t bytes[LONGEST_BUFFER + GUARD];
    uint32_t length;
};

/* The record; the event, or the many bytes of a call; and these as they were before it. */
static struct buffer record, asked;
static uint8_t kept[LONGEST_BUFFER + GUARD];
static uint8_t guard[GUARD];
static unsigned long frame;

static void stop(int status, const char *form, ...) {
    va_list words;
    fflush(stdout);
    fprintf(stderr, "probe: frame %lu: ", frame);
    va_start(words, form);
    vfprintf(stderr, form, words);
    va_end(words);
    fputc('\n', stderr);
    exit(status);
}

static void get(void *to, size_t count) {
    if (count > 0 && fread(to, 1, count, stdin) != count) {
        if (ferror(stdin)) stop(1, "cannot read");
        stop(2, "cut off");
    }
}

static uint32_t get_number(void) {
    uint8_t bytes[4];
    get(bytes, sizeof bytes);
    return bytes[0] | (uint32_t)bytes[1] << 8 | (uint32_t)bytes[2] << 16 | (uint32_t)bytes[3] << 24;
}

static void put(const void *from, size_t count) {
    if (count > 0 && fwrite(from, 1, count, stdout) != count) stop(1, "cannot write");
}

static void put_number(uint64_t number, int bytes) {
    uint8_t all[8];
    int i;
    for (i = 0; i < bytes; i++) all[i] = (uint8_t)(number >> 8 * i);
    put(all, (size_t)bytes);
}

/* The rest of a buffer whose length was got. */
static void get_buffer(struct buffer *to, uint32_t length, const char *what) {
    if (length > LONGEST_BUFFER) stop(2, "%s of %lu bytes", what, (unsigned long)length);
    to->length = length;
    get(to->bytes, length);
    memcpy(to->bytes + length, guard, GUARD);
}

/* An event has its length in one byte. */
static void get_asked(int kind) {
    uint8_t length;
    if (kind == 's') {
        get(&length, 1);
        get_buffer(&asked, length, "an event");
    } else get_buffer(&asked, get_number(), "a call");
    memcpy(kept, asked.bytes, asked.length + GUARD);
}

static void check(const struct buffer *lent, const char *what) {
    const uint8_t *after = lent->bytes + lent->length;
    uint32_t i = 0;
    if (memcmp(after, guard, GUARD) == 0) return;
    while (after[i] == GUARD_BYTE) i++;
    stop(3, "byte %lu past the %s was written", (unsigned long)i, what);
}

static void put_buffer(const struct buffer *from) {
    put_number(from->length, 4);
    put(from->bytes, from->length);
}

static void get_tape(int at) {
    uint32_t length = get_number(), from = get_number(), given = get_number();
    if (length > LONGEST_LENT || from > length || given > length - from) {
        stop(2, "a tape of %lu bytes with %lu given from %lu", (unsigned long)length, (unsigned long)given,
             (unsigned long)from);
    }
    tapes[at].length = length;
    get(tapes[at].bytes + from, given);
}

/* Tapes of 16 million zeros are passed in steps of so many bytes. */
#define PIECE 64u

static int zeros(const uint8_t *piece) {
    uint64_t words[PIECE / 8];
    memcpy(words, piece, sizeof words);
    return (words[0] | words[1] | words[2] | words[3] | words[4] | words[5] | words[6] | words[7]) == 0;
}

/* The first place from here on whose byte is not 0, or the end. */
static uint32_t past_zeros(const uint8_t *bytes, uint32_t from, uint32_t end) {
    while (end - from >= PIECE && zeros(bytes + from)) from += PIECE;
    while (from < end && bytes[from] == 0) from++;
    return from;
}

/* The place past the last byte that is not 0, after one that is not. */
static uint32_t before_zeros(const uint8_t *bytes, uint32_t end) {
    while (end >= PIECE && zeros(bytes + end - PIECE)) end -= PIECE;
    while (bytes[end - 1] == 0) end--;
    return end;
}

/* What a tape holds but for the zeros at both ends; the bounds of that. */
static void trim(int at, uint32_t *first, uint32_t *count) {
    uint8_t *bytes = tapes[at].bytes;
    uint32_t length = tapes[at].length;
    if (past_zeros(bytes, length, length + GUARD) != length + GUARD) stop(3, "bytes past tape %d were written", at);
    *first = past_zeros(bytes, 0, length);
    *count = 0;
    if (*first == length) *first = 0;
    else *count = before_zeros(bytes, length) - *first;
}

/* What a call left; one with many bytes returned a number, and one that takes wrote its buffer. */
static void put_step(int kind, const glenoulty_result *result, uint64_t went) {
    struct {
        glenoulty_lines_shown lines;
        uint8_t guard;
    } shown = {{0xEE, 0xEE, 0xEE}, GUARD_BYTE};
    uint32_t first[TAPES], count[TAPES], length = 1 + 6 + 4 + 4 + record.length;
    uint8_t returned, named = (uint8_t)kind;
    int at;
    returned = glenoulty_lines(record.bytes, record.length, &shown.lines);
    check(&record, "record");
    if (shown.guard != GUARD_BYTE) stop(3, "a byte past the lines was written");
    for (at = 0; at < TAPES; at++) {
        trim(at, &first[at], &count[at]);
        length += 8 + count[at];
    }
    if (kind != 's') length += 8;
    if (kind == 't') length += 4 + asked.length;
    put_number(length, 4);
    put(&named, 1);
    put(result, 6);
    put(&returned, 1);
    put(&shown.lines, 3);
    put_buffer(&record);
    for (at = 0; at < TAPES; at++) {
        put_number(first[at], 4);
        put_number(count[at], 4);
        put(tapes[at].bytes + first[at], count[at]);
        memset(tapes[at].bytes + first[at], 0, count[at]);
    }
    if (kind != 's') put_number(went, 8);
    if (kind == 't') put_buffer(&asked);
}

/* What every call is lent that answers events. */
#define LENT \
    record.bytes, record.length, tapes[0].bytes, tapes[0].length, tapes[1].bytes, tapes[1].length, tapes[2].bytes, \
        tapes[2].length, tapes[3].bytes, tapes[3].length, asked.bytes, asked.length

/* The bytes that the library has to write begin as others, so that one left out shows. */
static void step(int kind) {
    struct {
        glenoulty_result result;
        uint8_t guard;
    } out = {{0xEE, 0xEE, 0xEE, 0xEE, 0xEE, 0xEE}, GUARD_BYTE};
    uint64_t went = 0;
    int at;
    get_buffer(&record, get_number(), "a record");
    for (at = 0; at < TAPES; at++) get_tape(at);
    get_asked(kind);
    if (kind == 's') glenoulty_step(LENT, &out.result);
    else if (kind == 'g') went = glenoulty_give(LENT, &out.result);
    else went = glenoulty_take(LENT, &out.result);
    if (out.guard != GUARD_BYTE) stop(3, "a byte past the result was written");
    if (kind == 't') check(&asked, "bytes to take");
    else if (memcmp(kept, asked.bytes, asked.length + GUARD) != 0) stop(3, "the event or bytes given were written");
    put_step(kind, &out.result, went);
}

static void fresh(void) {
    uint8_t returned;
    get_buffer(&record, get_number(), "a record");
    returned = glenoulty_fresh(record.bytes, record.length);
    check(&record, "record");
    put_number(1 + 1 + 4 + record.length, 4);
    put("f", 1);
    put(&returned, 1);
    put_buffer(&record);
}

static void size(void) {
    put_number(1 + 8, 4);
    put("z", 1);
    put_number(glenoulty_size(), 8);
}

int main(void) {
    static char in[1 << 20], out[1 << 20];
    int at, kind;
    setvbuf(stdin, in, _IOFBF, sizeof in);
    setvbuf(stdout, out, _IOFBF, sizeof out);
    memset(guard, GUARD_BYTE, sizeof guard);
    for (at = 0; at < TAPES; at++) {
        tapes[at].bytes = calloc(LONGEST_LENT + GUARD, 1);
        if (tapes[at].bytes == NULL) stop(1, "no memory for the tapes");
    }
    while ((kind = getchar()) != EOF) {
        frame++;
        if (kind == 's' || kind == 'g' || kind == 't') step(kind);
        else if (kind == 'f') fresh();
        else if (kind == 'z') size();
        else stop(2, "no frame begins with %02X", (unsigned)kind);
    }
    if (ferror(stdin)) stop(1, "cannot read");
    if (fflush(stdout) != 0) stop(1, "cannot write");
    return 0;
}
