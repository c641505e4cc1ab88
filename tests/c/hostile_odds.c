/* Calls of the odds of a move, with arguments out of their ranges (hostile.c). */
#include "lawful.h"

#include <string.h>

/* Whether damages are those of gen1_damage: as many numbers, or its code. */
static bool is_as_damage(const gen1_damages *got, const gen1_battle *battle, uint8_t side, uint8_t move,
                         bool critical) {
    uint16_t numbers[39] = {0};
    uint8_t code = gen1_damage(battle, side, move, critical, numbers);
    return got->code == code && got->count == (code == 0 ? 39 : 0) &&
           memcmp(got->numbers, numbers, sizeof numbers) == 0;
}

/* Whether the user's trapping continues with the move, which is then its current one. */
static bool traps_on(const gen1_state *state, uint8_t side, uint8_t move) {
    const gen1_side_state *own = &state->sides[side - 1];
    const gen1_active_state *user = &own->active;
    uint8_t slot = user->current_move;
    return (user->conditions & GEN1_CONDITION_TRAPPING) && slot >= 1 && slot <= 4 &&
           own->members[user->place - 1].moves[slot - 1] == move;
}

static uint16_t hp_out(const gen1_state *state, uint8_t side) {
    const gen1_side_state *own = &state->sides[side - 1];
    return own->members[own->active.place - 1].hp;
}

/* Whether the damage is missing, since the use does not deal it. */
static bool is_unusual(const gen1_damages *got) {
    const gen1_damages none = {.code = GEN1_ERROR_UNUSUAL};
    return got->code == none.code && got->count == 0 && memcmp(got->numbers, none.numbers, sizeof none.numbers) == 0;
}

/* Whether the damages are those of the battle. Trapping that continues lands the last damage again, without a test. */
static bool has_its_damage(const gen1_odds *odds, const gen1_battle *battle, uint8_t side, uint8_t move) {
    gen1_state state;
    gen1_get_state(battle, &state);
    if (!traps_on(&state, side, move))
        return is_as_damage(&odds->usual, battle, side, move, false) &&
               is_as_damage(&odds->critical, battle, side, move, true);
    bool lands = hp_out(&state, GEN1_ONE) > 0 && hp_out(&state, GEN1_TWO) > 0;
    return is_unusual(&odds->usual) && is_unusual(&odds->critical) && odds->critical_draws == 0 &&
           odds->least == state.last_damage && odds->most == state.last_damage &&
           odds->hit_draws == (lands ? 256 : 0) && odds->reason == (lands ? GEN1_ODDS_CAN_HIT : GEN1_ODDS_FALLEN);
}

/* Whether the chances are those of the battle, where they can be computed here: without stages a move has its own accuracy. */
static bool is_likely(const gen1_odds *odds, const gen1_battle *battle, uint8_t side, uint8_t move) {
    gen1_state state;
    gen1_move row;
    gen1_base base;
    gen1_get_state(battle, &state);
    const gen1_active_state *user = &state.sides[side - 1].active, *foe = &state.sides[2 - side].active;
    uint8_t species = state.sides[side - 1].members[user->place - 1].species;
    gen1_move_data(move, &row);
    gen1_species_stats(species, &base);
    bool is_often = move == GEN1_MOVE_KARATE_CHOP || move == GEN1_MOVE_RAZOR_LEAF || move == GEN1_MOVE_CRABHAMMER ||
                    move == GEN1_MOVE_SLASH;
    bool is_plain = !(user->conditions & GEN1_CONDITION_FOCUS_ENERGY) && !is_often;
    bool is_level = user->stages[4] == 6 && foe->stages[5] == 6 &&
                    !(foe->conditions & (GEN1_CONDITION_INVULNERABLE | GEN1_CONDITION_MIST));
    /* A move that continues has another accuracy, and a foe that has to recharge is put to sleep without a test. */
    const uint32_t going_on = GEN1_CONDITION_THRASH | GEN1_CONDITION_RAGE | GEN1_CONDITION_TRAPPING;
    bool is_new = !(user->conditions & going_on) && !(foe->conditions & GEN1_CONDITION_RECHARGE);
    uint16_t accuracy = row.accuracy > 1 ? row.accuracy : 1;
    uint16_t critical = odds->usual.code == GEN1_ERROR_UNUSUAL ? 0
                        : is_plain                             ? base.stats[3] / 2
                                                               : odds->critical_draws;
    uint16_t hits = odds->reason != GEN1_ODDS_CAN_HIT                       ? 0
                    : move == GEN1_MOVE_SWIFT || !gen1_takes_hit_test(move) ? 256
                    : is_level && is_new && move != GEN1_MOVE_DREAM_EATER   ? accuracy
                                                                            : odds->hit_draws;
    return odds->critical_draws == critical && odds->critical_draws <= 255 && odds->hit_draws == hits && hits <= 256;
}

static void try_odds_now(void) {
    bool is_valid;
    gen1_battle from = some_battle(&is_valid);
    uint8_t side = one_in(4) ? any_byte() : (uint8_t)(1 + draw(2)),
            move = one_in(4) ? any_byte() : (uint8_t)(1 + draw(165));
    const gen1_battle *battle = block_of(0, &from, sizeof from);
    gen1_odds *odds = block(1, sizeof *odds);
    gen1_state state;
    gen1_get_state(&from, &state);
    note();
    uint8_t got = gen1_odds_now(battle, side, move, odds);
    uint8_t want = side != GEN1_ONE && side != GEN1_TWO ? GEN1_ERROR_SIDE
                   : move < 1 || move > 165             ? GEN1_ERROR_MOVE
                   : state.turn == 0                    ? GEN1_ERROR_NOBODY_OUT
                                                        : 0;
    bool is_right =
        got != 0 ? unchanged() : changed_only(1, sizeof *odds) && odds->usual.count <= 39 && odds->critical.count <= 39;
    if (got == 0 && want == 0 && is_valid)
        is_right &= has_its_damage(odds, &from, side, move) && is_likely(odds, &from, side, move);
    tell("gen1_odds_now", got == want && is_right, got, want);
}

/* A team of one member. */
static gen1_team alone(const gen1_member *member) {
    gen1_team team;
    memset(&team, 0, sizeof team);
    team.members[0] = *member;
    team.count = 1;
    return team;
}

static void try_odds_between(void) {
    gen1_team one = lawful_team(), two = lawful_team();
    for (uint32_t times = draw(4); times > 0; times--)
        spoil(one_in(2) ? &one : &two);
    gen1_team first = alone(&one.members[0]), second = alone(&two.members[0]);
    uint8_t move = one_in(4) ? any_byte() : (uint8_t)(1 + draw(165));
    uint32_t want = move < 1 || move > 165 ? GEN1_ERROR_MOVE : fault_of_new(&first, &second, 0, GEN1_LIMIT);
    const gen1_member *user = block_of(0, &first.members[0], sizeof *user),
                      *foe = block_of(1, &second.members[0], sizeof *foe);
    gen1_odds *odds = block(2, sizeof *odds);
    note();
    uint32_t got = gen1_odds_between(user, foe, move, odds);
    bool is_right = got != 0 ? unchanged() : changed_only(2, sizeof *odds);
    if (got == 0 && want == 0) {
        gen1_battle battle;
        uint8_t seed[10];
        gen1_odds due;
        memcpy(seed, "any seed..", sizeof seed);
        gen1_new(&battle, &first, &second, seed, 0, GEN1_LIMIT);
        gen1_update_silent(&battle, GEN1_CHOICE_PASS, GEN1_CHOICE_PASS);
        is_right &= gen1_odds_now(&battle, GEN1_ONE, move, &due) == 0 && memcmp(odds, &due, sizeof due) == 0;
    }
    tell("gen1_odds_between", got == want && is_right, got, want);
}

/* The stats are those of the member in a battle. */
static void try_member_stats(void) {
    gen1_team team = lawful_team();
    for (uint32_t times = draw(3); times > 0; times--)
        spoil(&team);
    gen1_team only = alone(&team.members[0]);
    uint8_t want = (uint8_t)GEN1_CODE_OF(fault_of_new(&only, &only, 0, GEN1_LIMIT));
    const gen1_member *member = block_of(0, &only.members[0], sizeof *member);
    uint16_t *stats = block(1, 5 * sizeof *stats);
    note();
    uint8_t got = gen1_member_stats(member, stats);
    bool is_right = got != 0 ? unchanged() : changed_only(1, 5 * sizeof *stats);
    if (got == 0 && want == 0) {
        gen1_battle battle;
        gen1_state state;
        uint8_t seed[10] = {0};
        gen1_new(&battle, &only, &only, seed, 0, GEN1_LIMIT);
        gen1_get_state(&battle, &state);
        const gen1_member_state *it = &state.sides[0].members[0];
        is_right &= stats[0] == it->max_hp && memcmp(&stats[1], it->stats, sizeof it->stats) == 0;
    }
    tell("gen1_member_stats", got == want && is_right, got, want);
}

/* The expected result of some moves by docs/MECHANICS.md, "Hit test"; for the others either result. */
static uint8_t due_test(uint8_t move, uint8_t got) {
    switch (move) {
    case GEN1_MOVE_BIDE:
    case GEN1_MOVE_REST:
    case GEN1_MOVE_ROAR:
    case GEN1_MOVE_SPLASH:
        return 0;
    case GEN1_MOVE_STRENGTH:
    case GEN1_MOVE_SWIFT:
    case GEN1_MOVE_TOXIC:
        return 1;
    default:
        return move < 1 || move > 165 ? 0 : got & 1;
    }
}

static void try_takes_hit_test(void) {
    uint8_t move = any_byte();
    note();
    uint8_t got = gen1_takes_hit_test(move), want = due_test(move, got);
    tell("gen1_takes_hit_test", got == want && unchanged(), got, want);
}

try_call *const tries_of_odds[] = {try_odds_now, try_odds_between, try_member_stats, try_takes_hit_test, NULL};
