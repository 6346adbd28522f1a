// The program replay in plain C: runs a raw trace from standard input, and shows each answer as a line.
#include "unit.h"
#include <stdio.h>
#include <string.h>
#include <unistd.h>

enum { TAPE = 16384, PIECE = 65536, LINE = 32 };

// Bytes of input that are not run yet.
struct input {
    uint8_t bytes[PIECE];
    size_t from, to;
    bool ended;
};

// Lines that are not written yet.
struct output {
    char bytes[PIECE];
    size_t used;
};

static struct input in;
static struct output out;
static uint8_t cartridges[DRIVES][TAPE];

static bool flush(void) {
    size_t done = 0;
    while (done < out.used) {
        ssize_t n = write(STDOUT_FILENO, out.bytes + done, out.used - done);
        if (n <= 0) {
            perror("standard output");
            return false;
        }
        done += (size_t)n;
    }
    out.used = 0;
    return true;
}

// Reads behind what was left over, once; nothing read is the end.
static void read_more(void) {
    memmove(in.bytes, in.bytes + in.from, in.to - in.from);
    in.to -= in.from;
    in.from = 0;
    ssize_t n = read(STDIN_FILENO, in.bytes + in.to, PIECE - in.to);
    if (n < 0) perror("standard input");
    in.ended = n <= 0;
    if (n > 0) in.to += (size_t)n;
}

static size_t size_of(uint8_t kind) {
    return kind == COMMAND || kind == GIVE || (kind >= SLOT_IN && kind <= UNDERRUN) ? 2 : 1;
}

// The length of the next event, shorter where the input ends inside it; 0 where no more comes.
static size_t next_event(void) {
    for (;;) {
        size_t left = in.to - in.from;
        size_t size = left ? size_of(in.bytes[in.from]) : 1;
        if (left >= size) return size;
        if (in.ended) return left;
        // what was answered is written before it waits for more
        if (!flush()) return 0;
        read_more();
    }
}

static char *decimal(char *to, unsigned long number) {
    char digits[20];
    size_t n = 0;
    do digits[n++] = (char)('0' + number % 10);
    while (number /= 10);
    while (n) *to++ = digits[--n];
    return to;
}

static void show(unsigned long number, const struct result *r) {
    static const char hex[] = "0123456789ABCDEF";
    char *to = decimal(out.bytes + out.used, number);
    *to++ = ' ';
    *to++ = (char)('0' + r->answer);
    *to++ = ' ';
    *to++ = r->ready ? 'R' : '-';
    *to++ = r->exception ? 'E' : '-';
    *to++ = r->direction ? 'D' : '-';
    *to++ = ' ';
    *to++ = r->given ? hex[r->byte >> 4] : '-';
    *to++ = r->given ? hex[r->byte & 15] : '-';
    *to++ = '\n';
    out.used = (size_t)(to - out.bytes);
}

// Runs the trace, and answers how many events were answered.
static unsigned long run(void) {
    struct unit unit;
    struct tape tapes[DRIVES];
    struct result result = {0};
    unsigned long count = 0;
    size_t length;
    baseline_fresh(&unit);
    for (size_t d = 0; d < DRIVES; d++) tapes[d] = (struct tape){cartridges[d], TAPE};
    while (result.answer != MALFORMED && (length = next_event()) != 0) {
        baseline_step(&unit, tapes, in.bytes + in.from, length, &result);
        in.from += length;
        show(++count, &result);
        if (out.used > PIECE - LINE && !flush()) break;
    }
    return count;
}

static void say(const char *text) {
    size_t n = strlen(text);
    memcpy(out.bytes + out.used, text, n);
    out.used += n;
}

int main(void) {
    say("tape unit, 4 drives\n");
    unsigned long count = run();
    if (out.used > PIECE - LINE) return 1;
    out.used = (size_t)(decimal(out.bytes + out.used, count) - out.bytes);
    say(" events\n");
    return flush() ? 0 : 1;
}
