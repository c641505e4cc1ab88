/* Memory for calls that are tried (guarded.h): pages by mmap, each pair of them between two that may not be touched. */
#define _DEFAULT_SOURCE
#include "guarded.h"

#include <stdio.h>
#include <stdlib.h>
#include <string.h>
#include <sys/mman.h>

enum { NAMES = 80, TOLD = 10 };

typedef struct guarded {
    uint8_t *pages;
    uint8_t *bytes;
    size_t size;
    uint8_t before[GUARDED_ROOM];
} guarded;

static guarded blocks[BLOCKS];
static uint64_t state;
static struct {
    const char *name;
    long calls;
} counts[NAMES];
static long passed, failed;

uint32_t draw(uint32_t bound) {
    state ^= state << 13;
    state ^= state >> 7;
    state ^= state << 17;
    return (uint32_t)(state >> 32) % bound;
}

bool one_in(uint32_t many) { return draw(many) == 0; }

uint8_t any_byte(void) {
    static const uint8_t ends[] = {0, 1, 2, 3, 127, 128, 254, 255};
    return one_in(2) ? ends[draw(sizeof ends)] : (uint8_t)draw(256);
}

void begin_guarded(uint64_t seed) {
    state = (seed + 1) * 0x9e3779b97f4a7c15u | 1;
    for (int number = 0; number < BLOCKS; number++) {
        uint8_t *all = mmap(NULL, GUARDED_ROOM + 2 * PAGE, PROT_NONE, MAP_PRIVATE | MAP_ANONYMOUS, -1, 0);
        if (all == MAP_FAILED || mprotect(all + PAGE, GUARDED_ROOM, PROT_READ | PROT_WRITE) != 0) {
            perror("guarded pages");
            exit(2);
        }
        blocks[number].pages = blocks[number].bytes = all + PAGE;
    }
}

void *block(int number, size_t size) {
    guarded *it = &blocks[number];
    for (size_t at = 0; at < GUARDED_ROOM; at += 4) {
        uint32_t word = draw(UINT32_MAX);
        memcpy(it->pages + at, &word, sizeof word);
    }
    it->bytes = one_in(2) ? it->pages : it->pages + GUARDED_ROOM - size;
    it->size = size;
    return it->bytes;
}

void *block_of(int number, const void *bytes, size_t size) {
    void *to = block(number, size);
    memcpy(to, bytes, size);
    return to;
}

void note(void) {
    for (int number = 0; number < BLOCKS; number++)
        memcpy(blocks[number].before, blocks[number].pages, GUARDED_ROOM);
}

/* Whether a block's pages are unchanged, except for the block's first bytes. */
static bool kept_behind(const guarded *it, size_t size) {
    size_t begin = (size_t)(it->bytes - it->pages), end = begin + size;
    return memcmp(it->pages, it->before, begin) == 0 &&
           memcmp(it->pages + end, it->before + end, GUARDED_ROOM - end) == 0;
}

bool changed_only_these(const size_t sizes[BLOCKS]) {
    for (int at = 0; at < BLOCKS; at++)
        if (!kept_behind(&blocks[at], sizes[at]))
            return false;
    return true;
}

bool changed_only_two(int number, size_t size, int other, size_t other_size) {
    size_t sizes[BLOCKS] = {0};
    sizes[number] = size;
    sizes[other] = other_size;
    return changed_only_these(sizes);
}

bool changed_only(int number, size_t size) { return changed_only_two(number, size, number, size); }

bool unchanged(void) { return changed_only(0, 0); }

void tell(const char *call, bool as_it_has_to_be, long got, long want) {
    int at = 0;
    while (at < NAMES - 1 && counts[at].name != NULL && strcmp(counts[at].name, call) != 0)
        at++;
    counts[at].name = call;
    counts[at].calls++;
    if (as_it_has_to_be) {
        passed++;
        return;
    }
    failed++;
    if (failed <= TOLD)
        printf("%s, call %ld: answered %ld, where %ld was due%s\n", call, counts[at].calls, got, want,
               got == want ? "; but memory is not as it has to be" : "");
}

int end_guarded(void) {
    for (int at = 0; at < NAMES && counts[at].name != NULL; at++)
        printf("%s: %ld calls\n", counts[at].name, counts[at].calls);
    printf("%ld passed, %ld failed\n", passed, failed);
    return failed > 0;
}
