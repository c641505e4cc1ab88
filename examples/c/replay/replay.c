/*
 * Reads the log bytes of a battle, and prints its lines as `battle_tool print` does.
 *
 *     cc -O2 replay.c $(pkg-config --cflags --libs gen1) -o replay
 *     ./replay [FILE]
 *
 * The log bytes are those that gen1_update writes, of any number of updates one after the other. Without FILE they are read from
 * standard input. Status 0: all lines were printed. Status 1: the bytes are not a log, and only an error was printed.
 */
#include "gen1.h"

#include <stdio.h>
#include <stdlib.h>

/* The greatest length of a battle's log: a battle has at most eleven updates more than its turn limit. */
enum { MOST = (9999 + 11) * GEN1_LOG_ROOM };

/* All bytes of a file, which the caller frees; NULL if they cannot be read, or are more than any battle has. */
static uint8_t *read_all(FILE *from, size_t *count) {
    uint8_t *bytes = malloc(MOST + 1);
    *count = 0;
    if (bytes == NULL)
        return NULL;
    *count = fread(bytes, 1, MOST + 1, from);
    if (ferror(from) || *count > MOST) {
        free(bytes);
        return NULL;
    }
    return bytes;
}

/* Reads all events. Returns GEN1_ERROR_LOG_END for a log, else the code of the first error, with `*at` at the event where it is. */
static uint8_t tested(const uint8_t *log, size_t count, size_t *at) {
    gen1_event event;
    uint8_t code;
    do
        code = gen1_next_event(log, count, at, &event);
    while (code == 0);
    return code;
}

static void print_lines(const uint8_t *log, size_t count) {
    char line[GEN1_LINE_ROOM];
    size_t at = 0, length = 0;
    while (gen1_next_line(log, count, &at, line, sizeof line, &length) == 0)
        fputs(line, stdout);
}

int main(int count, char **words) {
    FILE *from = count > 1 ? fopen(words[1], "rb") : stdin;
    size_t length = 0, at = 0;
    uint8_t *log = from == NULL ? NULL : read_all(from, &length);
    if (log == NULL) {
        fprintf(stderr, "error: %s cannot be read\n", count > 1 ? words[1] : "standard input");
        return 1;
    }
    uint8_t code = tested(log, length, &at);
    if (code == GEN1_ERROR_LOG_END)
        print_lines(log, length);
    else
        fprintf(stderr, "error: log %d at byte %zu\n", code, at);
    free(log);
    return code == GEN1_ERROR_LOG_END ? 0 : 1;
}
