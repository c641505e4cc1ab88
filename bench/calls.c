/*
 * The cost of each call in C. bench/calls runs it, and names the rows.
 *
 *     program TEAM_ONE TEAM_TWO
 */
#define _POSIX_C_SOURCE 199309L
#include <stdio.h>
#include <stdlib.h>
#include <string.h>
#include <time.h>

#include "gen1.h"

enum { BATCH = 1024, STEPS = 60, BEFORE = 20 };

static const uint8_t SEED[10] = {1, 36, 255, 7, 31, 100, 179, 254, 127, 10};

static gen1_team one, two;
static gen1_battle middle, battle;
static uint8_t pair[2], log_bytes[GEN1_LOG_ROOM];
static size_t log_count;
static volatile size_t kept;

/* The choice of a side in an update: that at (7 * update + side) modulo the number offered. */
static uint8_t chosen(const gen1_battle *of, uint8_t side, size_t update) {
    uint8_t choices[9];
    size_t count = gen1_choices(of, side, choices);
    return choices[(7 * update + side) % count];
}

static uint8_t byte_of_bit(int bit) {
    return (uint8_t)(bit == 0 ? GEN1_CHOICE_PASS : bit <= 5 ? GEN1_CHOICE_MOVE(bit - 1) : GEN1_CHOICE_SWITCH(bit - 5));
}

static void read_team(const char *path, gen1_team *team) {
    char text[4096];
    gen1_text_fault fault;
    FILE *file = fopen(path, "rb");
    size_t count = file ? fread(text, 1, sizeof text, file) : 0;
    if (!file || gen1_team_from_text(text, count, team, &fault) != 0) {
        fprintf(stderr, "calls: no team in %s\n", path);
        exit(1);
    }
    fclose(file);
}

static void new_battle(void) { gen1_new(&battle, &one, &two, SEED, 0, GEN1_LIMIT); }

static void choices(void) {
    uint8_t listed[9];
    kept = gen1_choices(&middle, GEN1_ONE, listed);
}

static void copy(void) { memcpy(&battle, &middle, sizeof battle); }

static void update(void) {
    copy();
    gen1_update(&battle, pair[0], pair[1], log_bytes, sizeof log_bytes, &log_count);
}

static void events(void) {
    gen1_event event;
    update();
    for (size_t at = 0; gen1_next_event(log_bytes, log_count, &at, &event) == 0;)
        kept = event.tag;
}

static void state(void) {
    gen1_state written;
    gen1_get_state(&middle, &written);
    kept = written.turn;
}

static double seconds(void) {
    struct timespec now;
    clock_gettime(CLOCK_MONOTONIC, &now);
    return (double)now.tv_sec + (double)now.tv_nsec / 1e9;
}

/* The nanoseconds of a call: the least of five runs of 50 ms or more. */
static void time_of(const char *row, void (*call)(void)) {
    double least = 1e9;
    for (int run = 0; run < 5; run++) {
        size_t calls = 0;
        double begun = seconds(), spent;
        do {
            for (int i = 0; i < 1000; i++)
                call();
            calls += 1000;
            spent = seconds() - begun;
        } while (spent < 0.05);
        if (spent / (double)calls < least)
            least = spent / (double)calls;
    }
    printf("%s\t%.1f\n", row, least * 1e9);
}

static _Alignas(GEN1_ALIGNMENT) gen1_battle battles[BATCH];
static gen1_batch_update updates[BATCH];
static uint64_t generators[BATCH];
static uint32_t lot = 1;

/* A step of a batch in parts: the masks of both sides, a choice of each battle and side, and the updates. */
static void step_by_parts(void) {
    static uint16_t masks[2][BATCH];
    for (uint8_t side = 0; side < 2; side++)
        gen1_offered_many(battles, BATCH, side + 1, masks[side], BATCH);
    for (int i = 0; i < BATCH; i++) {
        uint8_t *both[2] = {&updates[i].one, &updates[i].two};
        for (int side = 0; side < 2; side++) {
            lot = lot * 1664525u + 1013904223u;
            uint16_t mask = masks[side][i];
            for (int past = (int)((lot >> 16) % (uint32_t)(__builtin_popcount(mask) + !mask)); past > 0; past--)
                mask &= (uint16_t)(mask - 1);
            *both[side] = mask ? byte_of_bit(__builtin_ctz(mask)) : 0;
        }
    }
    gen1_update_many(battles, BATCH, updates, BATCH);
}

/* A step of a batch in one call. */
static void step_in_one(void) {
    size_t over;
    gen1_step_random_many(battles, BATCH, NULL, 0, generators, BATCH, updates, BATCH, &over);
}

/* The nanoseconds of a step of each battle: the least of five runs of sixty steps. */
static void time_of_steps(const char *row, void (*step)(void)) {
    double least = 1e9;
    for (int run = 0; run < 5; run++) {
        new_battle();
        for (int i = 0; i < BATCH; i++)
            battles[i] = battle, generators[i] = (uint64_t)(i + 1) * 0x9e3779b97f4a7c15u;
        double begun = seconds();
        for (int i = 0; i < STEPS; i++)
            step();
        double spent = seconds() - begun;
        if (spent < least)
            least = spent;
    }
    printf("%s\t%.1f\n", row, least * 1e9 / (BATCH * STEPS));
}

int main(int count, char **words) {
    if (count != 3)
        return 2;
    read_team(words[1], &one);
    read_team(words[2], &two);
    new_battle();
    for (size_t i = 0; i < BEFORE; i++)
        gen1_update_silent(&battle, chosen(&battle, GEN1_ONE, i), chosen(&battle, GEN1_TWO, i));
    middle = battle;
    pair[0] = chosen(&middle, GEN1_ONE, BEFORE);
    pair[1] = chosen(&middle, GEN1_TWO, BEFORE);
    time_of("new", new_battle);
    time_of("choices", choices);
    time_of("copy", copy);
    time_of("update", update);
    time_of("events", events);
    time_of("state", state);
    time_of_steps("batch", step_by_parts);
    time_of_steps("random", step_in_one);
    return 0;
}
