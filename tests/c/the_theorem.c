/*
 * Makes the calls of the_theorem_in_c (docs/PROVED.md, "The same for C") for the battle of crates/battle_tool, whose log is known: what
 * they return and write, and what a spectator knows in the end.
 *
 *     cc -std=c11 -I include tests/c/the_theorem.c crates/gen1_c/out/libgen1_c.a -o the_theorem
 *
 * Status 0 where all is right; else it prints what is wrong.
 */
#include "gen1.h"

#include <stdio.h>
#include <string.h>

#define STRENGTH GEN1_CHOICE_MOVE(1)

/* Memory that the calls must leave alone is filled with this byte. */
enum { FILL = 170 };

static const uint8_t seed[10] = {1, 36, 255, 7, 31, 100, 179, 254, 127, 10};

static const gen1_team tauros = {
    .members = {{
        .species = GEN1_SPECIES_TAUROS,
        .level = 100,
        .dvs = {15, 15, 15, 15},
        .moves = {GEN1_MOVE_STRENGTH},
        .pp_ups = {3, 3, 3, 3},
        .exp = {65535, 65535, 65535, 65535, 65535},
    }},
    .count = 1,
};

/* Both come out. The first turn hits each, and the second makes side 2 fall. */
static const uint8_t whole_log[82] = {
    0x02, 1,   128,  1, 100, 97,   1, 97,  1,    0, 0x02, 2,    128, 1,   100,  97, 1,   97,   1, 0,   0x01,
    1,    0,   0x03, 1, 128, 70,   2, 128, 0x07, 2, 128,  0x05, 2,   128, 149,  0,  97,  1,    0, 0,   0x03,
    2,    128, 70,   1, 128, 0x05, 1, 128, 7,    1, 97,   1,    0,   0,   0x01, 2,  0,   0x03, 1, 128, 70,
    2,    128, 0x07, 2, 128, 0x05, 2, 128, 0,    0, 97,   1,    0,   0,   0x19, 2,  128, 0x1A, 1,
};

/* An update: the choices, what gen1_update returns, where its log begins in `whole_log` and how long it is, the turn before it, and the
 * result before it. */
typedef struct update {
    uint8_t one, two, code;
    size_t at, length;
    uint8_t turn, result;
} update;

#define BOTH(request) (GEN1_OUTCOME_ONGOING | (request) << 3 | (request) << 5)

static const update updates[] = {
    {GEN1_CHOICE_PASS, GEN1_CHOICE_PASS, 0, 0, 23, 0, BOTH(GEN1_REQUEST_NOTHING)},
    {STRENGTH, STRENGTH, 0, 23, 36, 1, BOTH(GEN1_REQUEST_MOVE)},
    {STRENGTH, GEN1_CHOICE_PASS, GEN1_ERROR_NOT_OFFERED_TWO, 59, 0, 2, BOTH(GEN1_REQUEST_MOVE)},
    {0xff, STRENGTH, GEN1_ERROR_NOT_OFFERED_ONE, 59, 0, 2, BOTH(GEN1_REQUEST_MOVE)},
    {STRENGTH, STRENGTH, 0, 59, 23, 2, BOTH(GEN1_REQUEST_MOVE)},
};

static int wrong;

static void check(bool is_right, const char *what) {
    if (!is_right) {
        printf("wrong: %s\n", what);
        wrong++;
    }
}

static bool is_filled(const uint8_t *bytes, size_t count) {
    for (size_t at = 0; at < count; at++)
        if (bytes[at] != FILL)
            return false;
    return true;
}

/* Each side is offered one choice before each update. */
static void check_choices(const gen1_battle *battle, uint8_t side, const update *it) {
    uint8_t choices[9];
    memset(choices, FILL, sizeof choices);
    uint8_t want = it->turn == 0 ? GEN1_CHOICE_PASS : STRENGTH;
    check(gen1_choices(battle, side, choices) == 1 && choices[0] == want && is_filled(choices + 1, 8),
          "the choices of a side");
}

/* The calls of one update. Its log is appended to `log`, which has `length` bytes so far. */
static void play(gen1_battle *battle, const update *it, bool is_reloaded, uint8_t *log, size_t *length) {
    uint8_t own[GEN1_LOG_ROOM], stored[sizeof *battle];
    size_t count = 0;
    check(gen1_result(battle) == it->result, "the result before an update");
    check_choices(battle, GEN1_ONE, it);
    check_choices(battle, GEN1_TWO, it);
    memcpy(stored, battle->bytes, sizeof stored);
    check(stored[1] == it->turn && stored[2] == 0, "the turn in the stored bytes");
    if (is_reloaded)
        check(gen1_load(battle, stored, sizeof stored) == 0, "loading the stored bytes");
    memset(own, FILL, sizeof own);
    check(gen1_update(battle, it->one, it->two, own, sizeof own, &count) == it->code, "the code of an update");
    check(count == it->length && memcmp(own, whole_log + it->at, it->length) == 0, "the log of an update");
    check(is_filled(own + it->length, sizeof own - it->length), "what is after the log");
    check(it->code == 0 || memcmp(stored, battle->bytes, sizeof stored) == 0, "a battle after a refused pair");
    memcpy(log + *length, own, it->length);
    *length += it->length;
}

/* The whole battle, stored and loaded before each update or not, and its spectator, who gets the log in three pieces. */
static void play_and_watch(bool is_reloaded) {
    gen1_battle battle;
    gen1_spectator watch;
    uint8_t log[sizeof whole_log];
    size_t length = 0;
    check(gen1_new(&battle, &tauros, &tauros, seed, 3, GEN1_LIMIT) == 0, "a new battle");
    check(gen1_spectator_begin(&watch, &tauros, &tauros) == 0, "a new spectator");
    for (size_t at = 0; at < sizeof updates / sizeof updates[0]; at++)
        play(&battle, &updates[at], is_reloaded, log, &length);
    check(GEN1_RESULT_OUTCOME(gen1_result(&battle)) == GEN1_OUTCOME_WIN_ONE, "the result in the end");
    check(length == sizeof log, "the length of all logs");
    check(gen1_spectator_feed(&watch, log, 30) == 0 && gen1_spectator_feed(&watch, log + 30, 1) == 0 &&
              gen1_spectator_feed(&watch, log + 31, sizeof log - 31) == 0,
          "the pieces of the log");
    check(watch.turn == 2 && watch.outcome == GEN1_OUTCOME_WIN_ONE && watch.held_count == 0,
          "what a spectator knows of the battle");
    check(watch.sides[0].members[0].hp == 263 && watch.sides[1].members[0].hp == 0, "the HP that a spectator knows");
}

/* Rules above 3 are refused, and so is a byte of a log that isn't a tag. Neither changes anything. */
static void refuse(void) {
    static const uint8_t not_a_tag = 0xff;
    gen1_battle battle, as_it_was;
    gen1_spectator watch, knew;
    memset(&battle, FILL, sizeof battle);
    as_it_was = battle;
    check(gen1_new(&battle, &tauros, &tauros, seed, 4, GEN1_LIMIT) == GEN1_ERROR_RULES, "rules above 3");
    check(memcmp(&battle, &as_it_was, sizeof battle) == 0, "the memory for a battle after rules above 3");
    check(gen1_spectator_begin(&watch, &tauros, &tauros) == 0 && gen1_spectator_feed(&watch, whole_log, 23) == 0,
          "a spectator of the first log");
    memcpy(&knew, &watch, sizeof watch);
    check(gen1_spectator_feed(&watch, &not_a_tag, 1) == GEN1_ERROR_LOG_TAG, "a byte that isn't a tag");
    check(memcmp(&watch, &knew, sizeof watch) == 0, "a spectator after a byte that isn't a tag");
}

int main(void) {
    play_and_watch(false);
    play_and_watch(true);
    refuse();
    return wrong > 0;
}
