/*
 * Plays many battles of a team at once, with masks and batches and at random. Uses playouts to see which side is ahead. Lists all outcomes
 * of an update, and walks through its ways.
 *
 *     cc -O2 -I include examples/c/many.c crates/gen1_c/out/libgen1_c.a -o many
 *     ./many
 */
#include "gen1.h"

#include <stdio.h>
#include <string.h>

enum { BATTLES = 100, ROUNDS = 1000, PLACES = 4096 };

/* A team as a packed line (see also text.c). */
static const char packed[] =
    "Tauros||||BodySlam,HyperBeam,Blizzard,Earthquake|||||||]Chansey||||IceBeam,Thunderbolt|||||||";

/* The choice of the lowest bit. */
static uint8_t first_choice(uint16_t mask) {
    int bit = 0;
    while (bit < 11 && !(mask >> bit & 1))
        bit++;
    return GEN1_CHOICE_AT(bit);
}

/* Updates all battles with the first choice of each side. Returns how many were updated, or -1 if one that isn't over was refused. */
static int step(gen1_battle battles[BATTLES]) {
    uint16_t masks[2][BATTLES];
    gen1_batch_update updates[BATTLES];
    int went_on = 0;
    if (gen1_offered_many(battles, BATTLES, GEN1_ONE, masks[0], BATTLES) != 0 ||
        gen1_offered_many(battles, BATTLES, GEN1_TWO, masks[1], BATTLES) != 0)
        return -1;
    for (int at = 0; at < BATTLES; at++) {
        updates[at].one = first_choice(masks[0][at]);
        updates[at].two = first_choice(masks[1][at]);
    }
    if (gen1_update_many(battles, BATTLES, updates, BATTLES) != 0)
        return -1;
    for (int at = 0; at < BATTLES; at++) {
        if (updates[at].code != 0 && updates[at].code != GEN1_ERROR_OVER)
            return -1;
        went_on += updates[at].code == 0;
    }
    return went_on;
}

/* Plays all battles to their end by random choices. Returns the number of steps, or -1 if a call failed. */
static int play_at_random(gen1_battle battles[BATTLES]) {
    gen1_batch_update updates[BATTLES];
    uint64_t generators[BATTLES];
    size_t over = 0;
    int steps = 0;
    for (int at = 0; at < BATTLES; at++)
        generators[at] = (uint64_t)(at + 1) * 0x9e3779b97f4a7c15u;
    for (; over < BATTLES; steps++)
        if (gen1_step_random_many(battles, BATTLES, NULL, 0, generators, BATTLES, updates, BATTLES, &over) != 0)
            return -1;
    return steps;
}

/* Creates the battles, each with a different seed. */
static bool begin(gen1_battle battles[BATTLES]) {
    gen1_team team;
    gen1_text_fault fault;
    bool are_made = gen1_team_from_packed(packed, strlen(packed), &team, &fault) == 0;
    for (int at = 0; at < BATTLES && are_made; at++) {
        uint8_t seed[10] = {(uint8_t)at, 36, 255, 7, 31, 100, 179, 254, 127, 10};
        are_made = gen1_new(&battles[at], &team, &team, seed, 0, GEN1_LIMIT) == 0;
    }
    return are_made;
}

/* Prints how many outcomes there are if side 1 uses Body Slam while side 2 sends out Chansey, and the chance of a miss. */
static bool list_outcomes(gen1_battle battle) {
    static gen1_successor found[PLACES];
    static uint32_t table[2 * PLACES];
    const gen1_outcome_options options = {0};
    gen1_outcome_list list;
    double missed = 0;
    if (gen1_update_silent(&battle, GEN1_CHOICE_PASS, GEN1_CHOICE_PASS) != 0 ||
        gen1_outcomes(&battle, GEN1_CHOICE_MOVE(1), GEN1_CHOICE_SWITCH(2), &options, found, PLACES, table, 2 * PLACES,
                      &list) != 0)
        return false;
    for (uint64_t at = 0; at < list.count; at++) {
        gen1_state state;
        gen1_get_state(&found[at].battle, &state);
        if (state.sides[1].members[1].hp == state.sides[1].members[1].max_hp)
            missed += GEN1_PROBABILITY(&found[at], &list);
    }
    printf("%u outcomes, a miss with probability %g\n", (unsigned)list.count, missed);
    return true;
}

/* Prints the chance that a way of the same update has a critical hit. */
static bool walk_ways(gen1_battle battle) {
    gen1_walk walk;
    gen1_way way;
    double critical = 0;
    if (gen1_update_silent(&battle, GEN1_CHOICE_PASS, GEN1_CHOICE_PASS) != 0 ||
        gen1_walk_begin(&battle, GEN1_CHOICE_MOVE(1), GEN1_CHOICE_SWITCH(2), 0, &walk) != 0)
        return false;
    while (gen1_walk_next(&walk, &way) == 0) {
        size_t at = 0;
        gen1_event event;
        while (gen1_next_event(way.log, way.log_length, &at, &event) == 0)
            if (event.tag == GEN1_EVENT_CRIT)
                critical += GEN1_WAY_PROBABILITY(&way);
    }
    printf("a critical hit with probability %g\n", critical);
    return true;
}

int main(void) {
    gen1_battle battles[BATTLES];
    const gen1_playout_options options = {.seed = 1, .rounds = ROUNDS};
    gen1_playouts counts;
    int went_on, ended = 0, steps;

    if (!begin(battles) || gen1_playout(&battles[0], &options, &counts) != 0)
        return 1;
    printf("%u wins of side 1, %u of side 2, %u ties\n", (unsigned)counts.wins_one, (unsigned)counts.wins_two,
           (unsigned)counts.ties);
    if (!list_outcomes(battles[0]) || !walk_ways(battles[0]))
        return 1;
    steps = play_at_random(battles);
    if (steps < 0 || !begin(battles))
        return 1;
    printf("%d random steps to the end of all battles\n", steps);
    do
        went_on = step(battles);
    while (went_on > 0);
    for (int at = 0; at < BATTLES; at++)
        ended += GEN1_RESULT_OUTCOME(gen1_result(&battles[at])) != GEN1_OUTCOME_ONGOING;
    printf("%d battles have ended\n", ended);
    return went_on == 0 && counts.wins_one + counts.wins_two + counts.ties + counts.faults == ROUNDS ? 0 : 1;
}
