/*
 * The view of a player: side 1 reads each log as it is reported to it, and prints what it knows about the foe.
 *
 *     cc -O2 -I include examples/c/known.c crates/gen1_c/out/libgen1_c.a -o known
 *     ./known
 */
#include "gen1.h"

#include <stdio.h>
#include <string.h>

static const char one_text[] = "Tauros\n- Splash\n";
static const char two_text[] = "Chansey\n- Soft-Boiled\n\nAlakazam\n- Reflect\n- Psychic\n";

/* Plays an update as the host of a battle does, and passes to the player what its side may know. */
static bool played(gen1_battle *battle, uint8_t one, uint8_t two, gen1_teller *teller, gen1_player *player) {
    uint8_t log[GEN1_LOG_ROOM], told[GEN1_LOG_ROOM];
    size_t length, count;
    gen1_own_side own;
    if (gen1_update(battle, one, two, log, sizeof log, &length) != 0 ||
        gen1_tell(teller, log, length, told, sizeof told, &count) != 0 ||
        gen1_get_own_side(battle, player->side, &own) != 0)
        return false;
    gen1_player_show(player, &own, gen1_offered(battle, player->side));
    return gen1_player_feed(player, told, count) == 0;
}

/* Prints each member of the foe that has appeared, with the moves that it was seen to use. */
static void print_foe(const gen1_player *player) {
    const gen1_public_side *foe = &player->known.sides[2 - player->side];
    char name[GEN1_NAME_ROOM];
    size_t length;
    printf("turn %d\n", player->known.turn);
    for (int number = 1; number <= 6 && foe->members[number - 1].species != 0; number++) {
        const gen1_seen *seen = &foe->members[number - 1];
        gen1_species_name(seen->species, name, sizeof name, &length);
        printf("%d %s%s, %d of %d HP", number, name, number == foe->place ? " (out)" : "", seen->hp, seen->max);
        for (int slot = 0; slot < 5 && seen->moves[slot].id != 0; slot++) {
            gen1_move_name(seen->moves[slot].id, name, sizeof name, &length);
            printf(", %s %d", name, seen->moves[slot].uses);
        }
        printf(foe->announced.reflect && number == foe->place ? ", Reflect is up\n" : "\n");
    }
}

int main(void) {
    static const uint8_t seed[10] = {1, 36, 255, 7, 31, 100, 179, 254, 127, 10};
    gen1_team one, two;
    gen1_text_fault fault;
    gen1_battle battle;
    gen1_teller teller;
    gen1_player player;
    const gen1_player_terms terms = {.limit = GEN1_LIMIT, .hp_form = GEN1_HP_BAR};

    if (gen1_team_from_text(one_text, strlen(one_text), &one, &fault) != 0 ||
        gen1_team_from_text(two_text, strlen(two_text), &two, &fault) != 0 ||
        gen1_new(&battle, &one, &two, seed, 0, GEN1_LIMIT) != 0 ||
        gen1_teller_begin(&teller, GEN1_ONE, GEN1_HP_BAR) != 0 ||
        gen1_player_begin(&player, GEN1_ONE, &one, &terms) != 0)
        return 1;
    if (!played(&battle, GEN1_CHOICE_PASS, GEN1_CHOICE_PASS, &teller, &player))
        return 1;
    print_foe(&player);
    /* Side 2 sends out its second member, which then puts up Reflect. Splash does nothing. */
    if (!played(&battle, GEN1_CHOICE_MOVE(1), GEN1_CHOICE_SWITCH(2), &teller, &player) ||
        !played(&battle, GEN1_CHOICE_MOVE(1), GEN1_CHOICE_MOVE(1), &teller, &player))
        return 1;
    print_foe(&player);
    return 0;
}
