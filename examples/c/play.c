/*
 * Plays the battle that standard input describes, and prints its lines as `battle_tool run` does.
 *
 *     cc -O2 -I include examples/c/play.c crates/gen1_c/out/libgen1_c.a -o play
 *     ./play < examples/tauros.txt
 *
 * The input is decimal numbers separated by white space: the rules, the turn limit and the ten numbers of the seed; then for each
 * team the number of members, and for each member its species, level, four DVs, five numbers of experience, and four moves with
 * their PP ups (0 0 for no move); and then pairs of choices, up to the end.
 */
#include "gen1.h"

#include <stdio.h>
#include <stdlib.h>
#include <string.h>

/* Ends the program, because its input is not a battle. */
static void stop_at_input(void) {
    fputs("error: input\n", stderr);
    exit(1);
}

/* The next number of standard input, from 0 up to `most`; or -1 at the end of the input. At anything else the program ends. */
static int number_or_end(int most) {
    char word[12];
    if (scanf("%11s", word) != 1) {
        if (ferror(stdin))
            stop_at_input();
        return -1;
    }
    /* A word that fills the buffer may be longer than it; no number here is that long. */
    if (strspn(word, "0123456789") != strlen(word) || strlen(word) == sizeof word - 1 || strtol(word, NULL, 10) > most)
        stop_at_input();
    return (int)strtol(word, NULL, 10);
}

/* The next number, which is required. */
static int number_up_to(int most) {
    int value = number_or_end(most);
    if (value < 0)
        stop_at_input();
    return value;
}

static void read_member(gen1_member *member) {
    member->species = (uint8_t)number_up_to(255);
    member->level = (uint8_t)number_up_to(255);
    for (int at = 0; at < 4; at++)
        member->dvs[at] = (uint8_t)number_up_to(255);
    for (int at = 0; at < 5; at++)
        member->exp[at] = (uint16_t)number_up_to(65535);
    for (int at = 0; at < 4; at++) {
        member->moves[at] = (uint8_t)number_up_to(255);
        member->pp_ups[at] = (uint8_t)number_up_to(255);
    }
}

static void read_team(gen1_team *team) {
    team->count = (uint8_t)number_up_to(6);
    for (int at = 0; at < team->count; at++)
        read_member(&team->members[at]);
}

/* Creates the battle that standard input describes. */
static void begin(gen1_battle *battle) {
    gen1_team one = {0}, two = {0};
    uint8_t seed[10];
    uint8_t rules = (uint8_t)number_up_to(255);
    uint16_t limit = (uint16_t)number_up_to(65535);
    for (int at = 0; at < 10; at++)
        seed[at] = (uint8_t)number_up_to(255);
    read_team(&one);
    read_team(&two);
    uint32_t fault = gen1_new(battle, &one, &two, seed, rules, limit);
    if (fault != 0) {
        fprintf(stderr, "error: team %u place %u refusal %u\n", (unsigned)GEN1_SIDE_OF(fault),
                (unsigned)GEN1_PLACE_OF(fault), (unsigned)GEN1_CODE_OF(fault));
        exit(1);
    }
}

/* Prints the lines of the log of an update. */
static void print_log(const uint8_t *log, size_t count) {
    char line[GEN1_LINE_ROOM];
    size_t at = 0, length = 0;
    while (gen1_next_line(log, count, &at, line, sizeof line, &length) == 0)
        fputs(line, stdout);
}

int main(void) {
    gen1_battle battle;
    uint8_t log[GEN1_LOG_ROOM];
    size_t length = 0;
    begin(&battle);
    for (int pair = 0;; pair++) {
        int one = number_or_end(255);
        if (one < 0)
            return 0;
        int two = number_up_to(255);
        uint8_t refusal = gen1_update(&battle, (uint8_t)one, (uint8_t)two, log, sizeof log, &length);
        if (refusal != 0) {
            fflush(stdout);
            fprintf(stderr, "error: pair %d refused %d\n", pair, refusal);
            return 1;
        }
        print_log(log, length);
    }
}
