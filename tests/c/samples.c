/*
 * Samples updates of random battles with independent bytes through a library, and compares them with gen1_outcomes.
 *
 *     cc -O2 -I include -I tests/c tests/c/samples.c tests/c/lawful.c tests/c/guarded.c crates/gen1_c/out/libgen1_c.a -lm -o samples
 *     ./samples [POSITIONS [SAMPLES [SEED]]]         200 positions, 200,000 samples of each
 *
 * gen1_walk_next first plays the draws that are in the walk. This program sets them, so each draw gets a separate byte. A search gets
 * a byte that passes its test. All such bytes are equally likely; `passes` has them from docs/MECHANICS.md. A position is left out if it
 * has a search other than those of damage and of sleep.
 *
 * Each sample has to be in the list. The tails of the chi-squares have to be spread evenly.
 */
#include "gen1.h"
#include "guarded.h"
#include "lawful.h"

#include <math.h>
#include <stdio.h>
#include <stdlib.h>
#include <string.h>

enum { PLACES = 65536, DRAWS = 24, EACH = 256, OF_DAMAGE = 39, OF_SLEEP = 224, LOOKS_AT_ALL = 2 };

static gen1_successor found[PLACES];
static uint32_t table[2 * PLACES], seen[PLACES], slots[2 * PLACES];
static gen1_outcome_list list;

/* Whether a byte passes the test of the search that this many bytes pass. */
static bool passes(uint16_t total, uint8_t byte) {
    uint8_t rotated = (uint8_t)(byte >> 1 | byte << 7);
    return total == EACH || (total == OF_DAMAGE && rotated >= 217) || (total == OF_SLEEP && (byte & 7) != 0);
}

/* Plays an update with bytes that are drawn here. Returns false if it has another search, or too many draws. */
static bool play(const gen1_walk *begun, gen1_way *way) {
    gen1_draw set[DRAWS];
    for (uint8_t count = 0; count < DRAWS; count++) {
        gen1_walk walk = *begun;
        memcpy(walk.draws, set, count * sizeof set[0]);
        walk.count = count;
        if (gen1_walk_next(&walk, way) != 0)
            return false;
        if (walk.over || walk.count <= count)
            return true; /* nothing that is drawn from here on makes a difference */
        uint16_t total = walk.draws[count].total;
        if (total != EACH && total != OF_DAMAGE && total != OF_SLEEP)
            return false;
        gen1_draw it = {
            .num = {1, 0}, .whole = {1, 0}, .total = 1, .count = 1, .look = {EACH, 0}, .kind = LOOKS_AT_ALL};
        do
            it.byte = (uint8_t)draw(EACH);
        while (!passes(total, it.byte));
        set[count] = it;
    }
    return false;
}

static size_t hash(const gen1_battle *battle) {
    uint64_t hash = 0;
    for (size_t at = 0; at < sizeof battle->bytes; at += 8) {
        uint64_t word;
        memcpy(&word, battle->bytes + at, sizeof word);
        hash = (hash ^ word) * 0x9e3779b97f4a7c15u;
        hash ^= hash >> 32;
    }
    return hash % (2 * PLACES);
}

/* The slot that has the number of an outcome, counted from 1, or a free one. */
static uint32_t *slot_of(const gen1_battle *battle) {
    size_t at = hash(battle);
    while (slots[at] != 0 && memcmp(&found[slots[at] - 1].battle, battle, sizeof *battle) != 0)
        at = (at + 1) % (2 * PLACES);
    return &slots[at];
}

/* The upper tail of chi-square, by Wilson and Hilferty. */
static double tail(double chi, double free) {
    double x = cbrt(chi / free), z = (x - (1 - 2 / (9 * free))) / sqrt(2 / (9 * free));
    return 0.5 * erfc(z / sqrt(2));
}

/* The tail of the samples that were seen. All outcomes that are expected fewer than eight times are one cell. -1 if there is only one. */
static double tail_of_seen(uint32_t samples) {
    double chi = 0, rare = 0, rarely = 0;
    int cells = 0;
    for (uint64_t at = 0; at < list.count; at++) {
        double expected = GEN1_PROBABILITY(&found[at], &list) * samples, got = seen[at];
        bool is_rare = expected < 8;
        rare += is_rare ? expected : 0;
        rarely += is_rare ? got : 0;
        chi += is_rare ? 0 : (got - expected) * (got - expected) / expected;
        cells += !is_rare;
    }
    if (rare >= 8) {
        chi += (rarely - rare) * (rarely - rare) / rare;
        cells++;
    }
    return cells > 1 ? tail(chi, cells - 1) : -1;
}

/* Samples a position. Returns the tail, or -1 if it has one cell or is left out. Ends the program if a sample is not in the list. */
static double sampled(const gen1_battle *battle, uint8_t one, uint8_t two, uint32_t samples) {
    gen1_walk begun;
    gen1_way way;
    const gen1_outcome_options all = {0};
    if (gen1_outcomes(battle, one, two, &all, found, PLACES, table, 2 * PLACES, &list) != 0 || list.count < 2 ||
        gen1_walk_begin(battle, one, two, 0, &begun) != 0)
        return -1;
    memset(slots, 0, sizeof slots);
    memset(seen, 0, sizeof seen);
    for (uint32_t at = 0; at < list.count; at++)
        *slot_of(&found[at].battle) = at + 1;
    for (uint32_t at = 0; at < samples; at++) {
        if (!play(&begun, &way))
            return -1;
        uint32_t number = *slot_of(&way.battle);
        if (number == 0) {
            printf("an outcome that is not listed\n0 passed, 1 failed\n");
            exit(1);
        }
        seen[number - 1]++;
    }
    return tail_of_seen(samples);
}

static int by_size(const void *one, const void *two) {
    double a = *(const double *)one, b = *(const double *)two;
    return (a > b) - (a < b);
}

int main(int count, char **words) {
    size_t positions = count > 1 ? strtoul(words[1], NULL, 10) : 200, got = 0;
    uint32_t samples = count > 2 ? (uint32_t)strtoul(words[2], NULL, 10) : 200000;
    double *tails = malloc((positions + 1) * sizeof *tails), error = 4 / sqrt((double)positions);
    begin_guarded(count > 3 ? strtoull(words[3], NULL, 10) : 1);
    while (got < positions) {
        meet(0);
        double it = sampled(&met[0], offered(&met[0], GEN1_ONE), offered(&met[0], GEN1_TWO), samples);
        if (it >= 0)
            tails[got++] = it;
    }
    qsort(tails, got, sizeof *tails, by_size);
    int failed = tails[0] <= 0.01 / (double)positions;
    printf("%lu positions, %lu samples of each, all listed; least tail %.5f", (unsigned long)got,
           (unsigned long)samples, tails[0]);
    for (int tenths = 1; tenths < 10; tenths += 4) {
        double bound = tenths / 10.0;
        size_t under = 0;
        while (under < got && tails[under] < bound)
            under++;
        printf(", under %.1f: %.3f", bound, (double)under / (double)got);
        /* About four standard errors. */
        failed += fabs((double)under / (double)got - bound) >= error * sqrt(bound * (1 - bound)) + 0.01;
    }
    printf("\n%d passed, %d failed\n", 4 - failed, failed);
    free(tails);
    return failed > 0;
}
