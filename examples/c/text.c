/*
 * Teams from text: one as a team builder exports it, which is printed as a packed line and plays against itself, and two with an
 * error, whose place is printed.
 *
 *     cc -O2 -I include examples/c/text.c crates/gen1_c/out/libgen1_c.a -o text
 *     ./text
 */
#include "gen1.h"

#include <stdio.h>
#include <string.h>

static const char text[] =
    "Tauros\n- Body Slam\n- Hyper Beam\n- Blizzard\n- Earthquake\n\nChansey\n- Ice Beam\n- Thunderbolt\n";
static const char misspelt[] = "Tauros\n- Body Slm\n";
static const char misspelt_packed[] = "Tauros||||BodySlam|||||||]Chansey||||IceBeem|||||||";

typedef uint8_t reading(const char *text, size_t count, gen1_team *team, gen1_text_fault *fault);

/* Prints where a text has an error; returns whether it has one. */
static bool show_fault(reading *read, const char *of) {
    gen1_team team;
    gen1_text_fault fault;
    uint8_t code = read(of, strlen(of), &team, &fault);
    if (code != 0)
        printf("line %zu, member %zu, field %zu: code %d\n", fault.line, fault.member, fault.field, code);
    return code != 0;
}

/* The first choice that a side is offered. The battle must not be over. */
static uint8_t first_choice(const gen1_battle *battle, uint8_t side) {
    uint8_t choices[9] = {GEN1_CHOICE_PASS};
    gen1_choices(battle, side, choices);
    return choices[0];
}

int main(void) {
    static const uint8_t seed[10] = {1, 36, 255, 7, 31, 100, 179, 254, 127, 10};
    gen1_team team;
    gen1_text_fault fault;
    gen1_battle battle;
    char line[GEN1_TEAM_PACKED_ROOM];
    size_t length;

    if (!show_fault(gen1_team_from_text, misspelt) || !show_fault(gen1_team_from_packed, misspelt_packed))
        return 1;
    if (gen1_team_from_text(text, strlen(text), &team, &fault) != 0 ||
        gen1_new(&battle, &team, &team, seed, 0, GEN1_LIMIT) != 0)
        return 1;
    if (gen1_team_to_packed(&team, line, sizeof line, &length) != 0)
        return 1;
    printf("%s", line);
    while (GEN1_RESULT_OUTCOME(gen1_result(&battle)) == GEN1_OUTCOME_ONGOING)
        if (gen1_update_silent(&battle, first_choice(&battle, GEN1_ONE), first_choice(&battle, GEN1_TWO)) != 0)
            return 1;
    printf("outcome %d\n", GEN1_RESULT_OUTCOME(gen1_result(&battle)));
    return 0;
}
