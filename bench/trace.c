// Writes a raw trace of as many events as the first word says to standard output.
#include "bench.h"
#include <stdio.h>
#include <stdlib.h>

int main(int count, char **words) {
    struct input in = {0};
    unsigned long events = count > 1 ? strtoul(words[1], NULL, 10) : 0;
    if (!events) return 2;
    add_start(&in);
    while (in.used / 2 < events) make_mixed(&in, 1, false);
    for (size_t i = 0; i < 2 * events; i += 2) {
        uint8_t kind = in.pairs[i];
        putchar(kind);
        if (kind < TAKE || kind > RESET) putchar(in.pairs[i + 1]);
    }
    free(in.pairs);
    return fflush(stdout) ? 2 : 0;
}
