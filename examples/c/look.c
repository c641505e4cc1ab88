/*
 * Plays a battle, and shows other calls of the library: offered choices, the result, events as structs, damage and odds, names, the
 * state of a battle, and a battle that is copied and loaded.
 *
 *     cc -O2 -I include examples/c/look.c crates/gen1_c/out/libgen1_c.a -o look
 *     ./look
 */
#include "gen1.h"

#include <stdio.h>
#include <string.h>

/* A Tauros at level 100 with Body Slam, Hyper Beam, Blizzard and Earthquake. */
static const gen1_member tauros = {
    .species = GEN1_SPECIES_TAUROS,
    .level = 100,
    .dvs = {15, 15, 15, 15},
    .moves = {GEN1_MOVE_BODY_SLAM, GEN1_MOVE_HYPER_BEAM, GEN1_MOVE_BLIZZARD, GEN1_MOVE_EARTHQUAKE},
    .pp_ups = {3, 3, 3, 3},
    .exp = {65535, 65535, 65535, 65535, 65535},
};

/* Prints the least and the most damage of a move of side 1. */
static void show_damage(const gen1_battle *battle, uint8_t move) {
    uint16_t damages[39];
    uint8_t code = gen1_damage(battle, GEN1_ONE, move, false, damages);
    char name[GEN1_NAME_ROOM], why[GEN1_SENTENCE_ROOM];
    size_t length, count;
    if (gen1_move_name(move, name, sizeof name, &length) != 0)
        return;
    if (code == 0)
        printf("%s takes %d to %d\n", name, damages[0], damages[38]);
    else if (gen1_error_text(code, why, sizeof why, &count) == 0)
        printf("%s: %s\n", name, why);
}

/* Prints the odds of a move of side 1: in the current state, and between two Tauros that have just been sent out. */
static bool show_odds(const gen1_battle *battle, uint8_t move) {
    gen1_odds now, fresh;
    if (gen1_odds_now(battle, GEN1_ONE, move, &now) != 0 || gen1_odds_between(&tauros, &tauros, move, &fresh) != 0)
        return false;
    printf("%d of 256 hit, %d of 256 are critical; at first %d and %d\n", now.hit_draws, now.critical_draws,
           fresh.hit_draws, fresh.critical_draws);
    return now.critical.count == 0 || now.critical.numbers[0] > now.usual.numbers[0];
}

/*
 * Whether side 1 wins by this pair of choices, tried on a copy. The copy gets other numbers to draw, so this is a guess, like that
 * of any player.
 */
static bool may_win_at_once(const gen1_battle *battle, uint8_t one, uint8_t two) {
    static const uint8_t other[10] = {9, 8, 7, 6, 5, 4, 3, 2, 1, 0};
    gen1_battle copy = *battle;
    return gen1_reseed(&copy, other, 0) == 0 && gen1_update_silent(&copy, one, two) == 0 &&
           GEN1_RESULT_OUTCOME(gen1_result(&copy)) == GEN1_OUTCOME_WIN_ONE;
}

/* The first choice of a side. */
static uint8_t first_choice(const gen1_battle *battle, uint8_t side) {
    uint8_t choices[9];
    uint8_t count = gen1_choices(battle, side, choices);
    return count == 0 ? GEN1_CHOICE_PASS : choices[0];
}

/* Prints a choice of side 1 in words. */
static void show_choice(const gen1_battle *battle, uint8_t choice) {
    char words[GEN1_WORDS_ROOM];
    size_t length;
    if (gen1_choice_words(battle, GEN1_ONE, choice, words, sizeof words, &length) == 0)
        printf("side 1 chooses %s: kind %d, slot %d\n", words, gen1_choice_kind(choice), gen1_choice_slot(choice));
}

/* Prints the rows of a species and of a move, by their names; returns whether both were found. */
static bool show_tables(const char *species, const char *move) {
    uint8_t of_species = gen1_species_from_name(species, strlen(species)),
            of_move = gen1_move_from_name(move, strlen(move));
    char first[GEN1_NAME_ROOM], name[GEN1_NAME_ROOM];
    size_t length, count;
    gen1_base base;
    gen1_move row;
    if (gen1_species_stats(of_species, &base) != 0 || gen1_move_data(of_move, &row) != 0 ||
        gen1_species_name(of_species, name, sizeof name, &length) != 0 ||
        gen1_type_name(base.types[0], first, sizeof first, &count) != 0)
        return false;
    printf("%s is %s, with base Speed %d; %s has power %d\n", name, first, base.stats[3], move, row.power);
    return true;
}

/* Prints the current HP and PP. */
static void show_state(const gen1_battle *battle) {
    gen1_state state;
    gen1_get_state(battle, &state);
    for (int side = 0; side < 2; side++) {
        const gen1_member_state *it = &state.sides[side].members[state.sides[side].active.place - 1];
        printf("side %d has %d of %d HP and %d PP of its first move\n", side + 1, it->hp, it->max_hp, it->pp[0]);
    }
}

/* Prints the turns, the damage and the paralysis in the events of a log. */
static void show_events(const uint8_t *log, size_t count) {
    gen1_event event;
    for (size_t at = 0; gen1_next_event(log, count, &at, &event) == 0;) {
        if (event.tag == GEN1_EVENT_TURN)
            printf("turn %d\n", event.turn);
        if (event.tag == GEN1_EVENT_DAMAGE)
            printf("side %d is at %d of %d\n", event.side, event.hp, event.max_hp);
        if (event.tag == GEN1_EVENT_CANT && event.detail == GEN1_REASON_PARALYSED)
            printf("side %d is paralysed, and does not move\n", event.side);
    }
}

/* Plays a battle in a room, where each player makes its first choice, with a spectator that is fed the log byte by byte. */
static bool play_in_room(const gen1_team *team, const uint8_t seed[10]) {
    gen1_room room;
    gen1_spectator spectator;
    if (gen1_new(&room.battle, team, team, seed, 0, GEN1_LIMIT) != 0 ||
        gen1_spectator_begin(&spectator, team, team) != 0)
        return false;
    gen1_room_begin(&room);
    for (;;) {
        for (uint16_t at = 0; at < room.log_length; at++)
            if (gen1_spectator_feed(&spectator, room.log + at, 1) != 0)
                return false;
        if (spectator.outcome != GEN1_OUTCOME_ONGOING)
            break;
        uint32_t number = room.number;
        for (uint8_t side = GEN1_ONE; side <= GEN1_TWO; side++) {
            uint8_t choices[9];
            if (gen1_room_choices(&room, side, choices) > 0 && gen1_room_submit(&room, side, number, choices[0]) != 0)
                return false;
        }
    }
    printf("in a room, as a spectator knows: outcome %d in turn %d, and side 1 has %d HP\n", spectator.outcome,
           spectator.turn, spectator.sides[0].members[0].hp);
    return true;
}

/* Plays the same battle at a host, where nobody chooses in time, and a player that knows only what side 1 is sent. */
static bool play_at_host(const gen1_team *team, const uint8_t seed[10]) {
    gen1_host host;
    gen1_player player;
    gen1_message message;
    gen1_notice notice;
    const gen1_player_terms terms = {.limit = GEN1_LIMIT, .hp_form = GEN1_HP_BAR};
    if (gen1_new(&host.room.battle, team, team, seed, 0, GEN1_LIMIT) != 0 ||
        gen1_player_begin(&player, GEN1_ONE, team, &terms) != 0)
        return false;
    gen1_host_begin(&host, GEN1_HP_BAR, 0, 0);
    do {
        if (gen1_host_message(&host, GEN1_ONE, &message) != 0 ||
            gen1_player_feed(&player, message.log, message.log_length) != 0)
            return false;
        gen1_player_show(&player, &message.own, message.offered);
        for (uint8_t side = GEN1_ONE; side <= GEN1_TWO; side++) {
            /* A server gives the row ten new numbers. This one draws on, as the room does. */
            gen1_row row = {.kind = GEN1_ROW_EXPIRE, .side = side, .number = message.number};
            bool is_due = gen1_host_number(&host) == message.number && (gen1_host_awaited(&host) & side) != 0;
            if (is_due && gen1_host_apply(&host, &row) != 0)
                return false;
        }
    } while (message.own.outcome == GEN1_OUTCOME_ONGOING);
    gen1_host_notice(&host, &notice);
    printf("at a host: outcome %d in turn %d, and side 2 has %d of 48 HP\n", notice.outcome, player.known.turn,
           player.known.sides[1].members[0].hp);
    return GEN1_RESULT_OUTCOME(gen1_host_result(&host)) == notice.outcome;
}

int main(void) {
    static const uint8_t seed[10] = {1, 36, 255, 7, 31, 100, 179, 254, 127, 10};
    gen1_team team = {.members = {tauros}, .count = 1};
    gen1_battle battle, loaded;
    uint8_t log[GEN1_LOG_ROOM];
    size_t length;

    if (gen1_version() != GEN1_VERSION_NUMBER || !show_tables("tauros", "Body Slam"))
        return 1;
    if (gen1_new(&battle, &team, &team, seed, 0, GEN1_LIMIT) != 0)
        return 1;
    show_damage(&battle, GEN1_MOVE_BODY_SLAM); /* no member is out yet */
    while (GEN1_RESULT_OUTCOME(gen1_result(&battle)) == GEN1_OUTCOME_ONGOING) {
        uint8_t one = first_choice(&battle, GEN1_ONE), two = first_choice(&battle, GEN1_TWO);
        show_choice(&battle, one);
        if (may_win_at_once(&battle, one, two))
            puts("side 1 may be about to win");
        if (gen1_update(&battle, one, two, log, sizeof log, &length) != 0)
            return 1;
        show_events(log, length);
    }
    printf("outcome %d\n", GEN1_RESULT_OUTCOME(gen1_result(&battle)));
    show_state(&battle);
    show_damage(&battle, GEN1_MOVE_BODY_SLAM);
    show_damage(&battle, GEN1_MOVE_GUILLOTINE); /* a move without the usual damage */
    if (!show_odds(&battle, GEN1_MOVE_BLIZZARD) || !play_in_room(&team, seed) || !play_at_host(&team, seed))
        return 1;

    if (gen1_load(&loaded, battle.bytes, sizeof battle.bytes) != 0 || memcmp(&loaded, &battle, sizeof battle) != 0)
        return 1;
    return gen1_load(&loaded, battle.bytes, 383) == GEN1_ERROR_LOAD_LENGTH ? 0 : 1;
}
