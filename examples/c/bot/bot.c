/*
 * Plays battles of a bot that tries each of its choices in forks of the battle, against a player that chooses at random.
 *
 *     cc -O2 bot.c $(pkg-config --cflags --libs gen1) -o bot
 *     ./bot [BATTLES [SEED]]
 *
 * Side 1 is the bot. For each offered choice it copies the battle several times, gives each copy other numbers to draw, and plays it to
 * its end with random choices. It makes the choice that won most. Both sides have the same four members, so that only choices and luck
 * decide. Prints how many battles each side won; the same arguments give the same battles.
 */
#include "gen1.h"

#include <stdio.h>
#include <stdlib.h>
#include <string.h>

/* How many forks are played for each choice, how many members a side has, and how many members there are to draw from. */
enum { PLAYOUTS = 32, MEMBERS_OF_A_SIDE = 4, MEMBERS = 12 };

/* The members to draw from: species, and four moves. */
static const uint8_t members[MEMBERS][5] = {
    {GEN1_SPECIES_CHARIZARD, GEN1_MOVE_FLAMETHROWER, GEN1_MOVE_SLASH, GEN1_MOVE_LEER, GEN1_MOVE_GROWL},
    {GEN1_SPECIES_BLASTOISE, GEN1_MOVE_SURF, GEN1_MOVE_ICE_BEAM, GEN1_MOVE_WITHDRAW, GEN1_MOVE_TAIL_WHIP},
    {GEN1_SPECIES_VENUSAUR, GEN1_MOVE_RAZOR_LEAF, GEN1_MOVE_BODY_SLAM, GEN1_MOVE_GROWTH, GEN1_MOVE_GROWL},
    {GEN1_SPECIES_PIDGEOT, GEN1_MOVE_WING_ATTACK, GEN1_MOVE_QUICK_ATTACK, GEN1_MOVE_SAND_ATTACK, GEN1_MOVE_GUST},
    {GEN1_SPECIES_RAICHU, GEN1_MOVE_THUNDERBOLT, GEN1_MOVE_QUICK_ATTACK, GEN1_MOVE_GROWL, GEN1_MOVE_TAIL_WHIP},
    {GEN1_SPECIES_NIDOKING, GEN1_MOVE_EARTHQUAKE, GEN1_MOVE_THRASH, GEN1_MOVE_LEER, GEN1_MOVE_HORN_ATTACK},
    {GEN1_SPECIES_ALAKAZAM, GEN1_MOVE_PSYCHIC, GEN1_MOVE_REFLECT, GEN1_MOVE_TELEPORT, GEN1_MOVE_KINESIS},
    {GEN1_SPECIES_MACHAMP, GEN1_MOVE_SUBMISSION, GEN1_MOVE_LOW_KICK, GEN1_MOVE_LEER, GEN1_MOVE_FOCUS_ENERGY},
    {GEN1_SPECIES_GOLEM, GEN1_MOVE_ROCK_SLIDE, GEN1_MOVE_EARTHQUAKE, GEN1_MOVE_HARDEN, GEN1_MOVE_DEFENSE_CURL},
    {GEN1_SPECIES_GENGAR, GEN1_MOVE_NIGHT_SHADE, GEN1_MOVE_THUNDERBOLT, GEN1_MOVE_LICK, GEN1_MOVE_CONFUSE_RAY},
    {GEN1_SPECIES_TAUROS, GEN1_MOVE_BODY_SLAM, GEN1_MOVE_STOMP, GEN1_MOVE_TAIL_WHIP, GEN1_MOVE_LEER},
    {GEN1_SPECIES_LAPRAS, GEN1_MOVE_ICE_BEAM, GEN1_MOVE_SURF, GEN1_MOVE_MIST, GEN1_MOVE_GROWL},
};

/* Random numbers of the players, which are independent of those that a battle draws. */
static uint64_t state;

static uint32_t draw(uint32_t bound) {
    state = state * 6364136223846793005u + 1442695040888963407u;
    return (uint32_t)(state >> 32) % bound;
}

static void draw_seed(uint8_t seed[10]) {
    for (int at = 0; at < 10; at++)
        seed[at] = (uint8_t)draw(256);
}

static gen1_team draw_team(void) {
    gen1_team team = {.count = MEMBERS_OF_A_SIDE};
    uint32_t first = draw(MEMBERS);
    for (int at = 0; at < team.count; at++) {
        const uint8_t *drawn = members[(first + (uint32_t)at * 5) % MEMBERS];
        gen1_member *it = &team.members[at];
        it->species = drawn[0];
        it->level = 100;
        memset(it->dvs, 15, sizeof it->dvs);
        memcpy(it->moves, drawn + 1, sizeof it->moves);
        memset(it->exp, 0xff, sizeof it->exp);
    }
    return team;
}

static uint8_t outcome(const gen1_battle *battle) { return GEN1_RESULT_OUTCOME(gen1_result(battle)); }

static uint8_t random_choice(const gen1_battle *battle, uint8_t side) {
    uint8_t choices[9];
    uint8_t count = gen1_choices(battle, side, choices);
    return count == 0 ? GEN1_CHOICE_PASS : choices[draw(count)];
}

/* Ends the program if a call returns a code, which none here should. */
static void stop_if_refused(uint8_t code) {
    if (code != 0) {
        fprintf(stderr, "error: refused %d\n", code);
        exit(1);
    }
}

static void update(gen1_battle *battle, uint8_t one, uint8_t two) {
    stop_if_refused(gen1_update_silent(battle, one, two));
}

/* A copy that draws other numbers than the battle, so that the bot can't foresee its luck. */
static gen1_battle fork_of(const gen1_battle *battle) {
    gen1_battle fork = *battle;
    uint8_t seed[10];
    draw_seed(seed);
    stop_if_refused(gen1_reseed(&fork, seed, 0));
    return fork;
}

/* The score of side 1 in a fork, after its choice and random ones up to the end: 2 for a win, 1 for a tie. */
static int played_out(gen1_battle fork, uint8_t choice) {
    update(&fork, choice, random_choice(&fork, GEN1_TWO));
    while (outcome(&fork) == GEN1_OUTCOME_ONGOING) {
        uint8_t one = random_choice(&fork, GEN1_ONE);
        update(&fork, one, random_choice(&fork, GEN1_TWO));
    }
    return outcome(&fork) == GEN1_OUTCOME_WIN_ONE ? 2 : outcome(&fork) == GEN1_OUTCOME_TIE ? 1 : 0;
}

/* The choice of side 1 with the highest score in its forks. */
static uint8_t best_choice(const gen1_battle *battle) {
    uint8_t choices[9], best = GEN1_CHOICE_PASS;
    uint8_t count = gen1_choices(battle, GEN1_ONE, choices);
    int most = -1;
    for (int at = 0; at < count; at++) {
        int sum = 0;
        for (int times = 0; times < PLAYOUTS && count > 1; times++)
            sum += played_out(fork_of(battle), choices[at]);
        if (sum > most) {
            most = sum;
            best = choices[at];
        }
    }
    return best;
}

/* Plays a battle, and returns its outcome. */
static uint8_t played(void) {
    gen1_team team = draw_team();
    gen1_battle battle;
    uint8_t seed[10];
    draw_seed(seed);
    uint32_t fault = gen1_new(&battle, &team, &team, seed, GEN1_SLEEP_CLAUSE | GEN1_FREEZE_CLAUSE, GEN1_LIMIT);
    if (fault != 0) {
        fprintf(stderr, "error: code %u\n", (unsigned)GEN1_CODE_OF(fault));
        exit(1);
    }
    while (outcome(&battle) == GEN1_OUTCOME_ONGOING) {
        uint8_t best = best_choice(&battle);
        update(&battle, best, random_choice(&battle, GEN1_TWO));
    }
    return outcome(&battle);
}

int main(int count, char **words) {
    int battles = count > 1 ? atoi(words[1]) : 100, ended[6] = {0};
    state = count > 2 ? strtoull(words[2], NULL, 10) : 1;
    for (int battle = 0; battle < battles; battle++)
        ended[played()]++;
    printf("bot %d, random %d, ties %d\n", ended[GEN1_OUTCOME_WIN_ONE], ended[GEN1_OUTCOME_WIN_TWO],
           battles - ended[GEN1_OUTCOME_WIN_ONE] - ended[GEN1_OUTCOME_WIN_TWO]);
    return 0;
}
