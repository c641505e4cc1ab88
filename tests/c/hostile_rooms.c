/* Calls of rooms and spectators, with arguments out of their ranges (hostile.c). */
#include "lawful.h"

#include <string.h>

/* ---- rooms ---- */

static bool is_side(uint8_t side) { return side == GEN1_ONE || side == GEN1_TWO; }

/* What is asked of a side, by gen1_result. */
static uint8_t request_of(uint8_t result, uint8_t side) {
    return side == GEN1_ONE ? GEN1_RESULT_REQUEST_ONE(result) : GEN1_RESULT_REQUEST_TWO(result);
}

/* A room before a pair of choices: a side that is asked nothing has its Pass. */
static bool is_fresh(const gen1_room *room, uint32_t number) {
    uint8_t result = gen1_result(&room->battle);
    bool is_right = room->number == number;
    for (uint8_t side = GEN1_ONE; side <= GEN1_TWO; side++)
        is_right &=
            room->chosen[side - 1] == (request_of(result, side) == GEN1_REQUEST_NOTHING ? GEN1_CHOICE_PASS : GEN1_DUE);
    return is_right;
}

/* Whether the battle and the log are those of an update by these choices. */
static bool is_updated(const gen1_room *room, gen1_battle from, uint8_t one, uint8_t two) {
    uint8_t log[GEN1_LOG_ROOM];
    size_t length = 0;
    return gen1_update(&from, one, two, log, sizeof log, &length) == 0 &&
           memcmp(&room->battle, &from, sizeof from) == 0 && room->log_length == length &&
           memcmp(room->log, log, length) == 0;
}

static void try_room_begin(void) {
    bool is_valid;
    gen1_battle from = some_battle(&is_valid);
    gen1_room *room = block(0, sizeof *room);
    room->battle = from;
    note();
    gen1_room_begin(room);
    bool is_right = changed_only(0, sizeof *room) && room->log_length <= GEN1_LOG_ROOM && room->number == 0 &&
                    room->forfeit == 0 && are_zeros(room->unused, sizeof room->unused);
    if (is_valid) {
        gen1_state state;
        gen1_get_state(&from, &state);
        is_right &= is_fresh(room, 0);
        is_right &= state.turn == 0 ? is_updated(room, from, GEN1_CHOICE_PASS, GEN1_CHOICE_PASS)
                                    : room->log_length == 0 && memcmp(&room->battle, &from, sizeof from) == 0;
    }
    tell("gen1_room_begin", is_right, room->number, 0);
}

/* A room of lawful play, perhaps with one of the choices; or any bytes. */
static gen1_room some_room(bool *is_valid) {
    gen1_room room;
    memset(&room, 0, sizeof room);
    room.battle = met[draw(MET)];
    gen1_room_begin(&room);
    for (uint32_t times = draw(4); times > 0; times--) {
        uint8_t side = (uint8_t)(1 + draw(2)), choices[9], count = gen1_room_choices(&room, side, choices);
        if (count > 0 && count <= 9)
            gen1_room_submit(&room, side, room.number, choices[draw(count)]);
    }
    *is_valid = !one_in(4);
    for (uint32_t changes = *is_valid ? 0 : 1 + draw(one_in(2) ? 4 : 400); changes > 0; changes--)
        ((uint8_t *)&room)[draw(sizeof room)] = any_byte();
    return room;
}

static void try_room_choices(void) {
    bool is_valid;
    gen1_room from = some_room(&is_valid);
    uint8_t side = one_in(4) ? any_byte() : (uint8_t)(1 + draw(2)), due[9] = {0};
    uint8_t count = !is_side(side) ? 0 : from.chosen[side - 1] != GEN1_DUE ? 0 : gen1_choices(&from.battle, side, due);
    const gen1_room *room = block_of(0, &from, sizeof from);
    uint8_t *choices = block(1, 9);
    note();
    uint8_t got = gen1_room_choices(room, side, choices), want = is_valid || !is_side(side) ? count : got;
    bool is_kept = got <= 9 && changed_only(1, got);
    if (is_valid && is_side(side) && is_kept)
        is_kept &= memcmp(choices, due, got) == 0;
    tell("gen1_room_choices", got == want && is_kept, got, want);
}

/* The code of a submission to a lawful room. */
static uint8_t fault_of_submission(const gen1_room *room, uint8_t side, uint32_t number, uint8_t choice) {
    return !is_side(side)                                                            ? GEN1_ERROR_SIDE
           : GEN1_RESULT_OUTCOME(gen1_result(&room->battle)) != GEN1_OUTCOME_ONGOING ? GEN1_ERROR_OVER
           : number != room->number                                                  ? GEN1_ERROR_STALE
           : room->chosen[side - 1] != GEN1_DUE                                      ? GEN1_ERROR_CHOSEN
           : !is_offered(&room->battle, side, choice)                                ? GEN1_ERROR_NOT_OFFERED
                                                                                     : 0;
}

/* Whether a code is one that a submission to any room may return. */
static bool is_submission_code(uint8_t code) {
    return code == 0 || code == GEN1_ERROR_SIDE || code == GEN1_ERROR_OVER || code == GEN1_ERROR_STALE ||
           code == GEN1_ERROR_CHOSEN || code == GEN1_ERROR_NOT_OFFERED;
}

/* The expected room after a lawful one has accepted a choice. */
static bool is_taken(const gen1_room *room, gen1_room from, uint8_t side, uint8_t choice) {
    from.chosen[side - 1] = choice;
    if (from.chosen[0] == GEN1_DUE || from.chosen[1] == GEN1_DUE)
        return memcmp(room, &from, sizeof from) == 0;
    return is_fresh(room, from.number + 1) && is_updated(room, from.battle, from.chosen[0], from.chosen[1]);
}

static void try_room_submit(void) {
    bool is_valid;
    gen1_room from = some_room(&is_valid);
    uint8_t side = one_in(4) ? any_byte() : (uint8_t)(1 + draw(2));
    uint8_t choice = one_in(2) && is_side(side) ? offered(&from.battle, side) : any_byte();
    uint32_t number = one_in(4) ? from.number + draw(3) - 1 : one_in(8) ? UINT32_MAX : from.number;
    gen1_room *room = block_of(0, &from, sizeof from);
    note();
    uint8_t got = gen1_room_submit(room, side, number, choice);
    uint8_t want = is_valid || !is_side(side) ? fault_of_submission(&from, side, number, choice) : got;
    bool is_kept = got != 0 ? unchanged() : changed_only(0, sizeof *room);
    is_kept &= room->log_length <= GEN1_LOG_ROOM || room->log_length == from.log_length;
    is_kept &= memcmp(room->unused, from.unused, sizeof from.unused) == 0 && room->forfeit == from.forfeit;
    if (is_valid && got == 0 && want == 0)
        is_kept &= is_taken(room, from, side, choice);
    tell("gen1_room_submit", got == want && is_submission_code(got) && is_kept, got, want);
}

/* A forfeit drops the choices of the pair, leaves the battle alone, and refuses what comes after it. */
static void try_room_forfeit(void) {
    bool is_valid;
    gen1_room from = some_room(&is_valid);
    uint8_t side = one_in(4) ? any_byte() : (uint8_t)(1 + draw(2));
    gen1_room *room = block_of(0, &from, sizeof from);
    note();
    uint8_t got = gen1_room_forfeit(room, side);
    bool is_over = GEN1_RESULT_OUTCOME(gen1_result(&from.battle)) != GEN1_OUTCOME_ONGOING;
    uint8_t want = !is_side(side) ? GEN1_ERROR_SIDE : is_over || from.forfeit != 0 ? GEN1_ERROR_OVER : 0;
    bool is_kept = got != 0 ? unchanged() : changed_only(0, sizeof *room) && room->forfeit == side;
    is_kept &= memcmp(room->unused, from.unused, sizeof from.unused) == 0;
    if (is_valid && got == 0 && want == 0) {
        const uint8_t won[2] = {GEN1_EVENT_WIN, (uint8_t)(3 - side)};
        is_kept &= room->forfeit == side && room->number == from.number + 1 && room->log_length == 2 &&
                   memcmp(room->log, won, 2) == 0 && memcmp(&room->battle, &from.battle, sizeof from.battle) == 0;
    }
    tell("gen1_room_forfeit", got == want && is_kept, got, want);
}

static void try_room_result(void) {
    bool is_valid;
    gen1_room from = some_room(&is_valid);
    uint8_t result = gen1_result(&from.battle), lost = (uint8_t)(1 + draw(2));
    bool is_lost = is_valid && GEN1_RESULT_OUTCOME(result) == GEN1_OUTCOME_ONGOING && one_in(2) &&
                   gen1_room_forfeit(&from, lost) == 0;
    const gen1_room *room = block_of(0, &from, sizeof from);
    note();
    uint8_t got = gen1_room_result(room);
    uint8_t want = !is_valid ? got
                   : is_lost ? (lost == GEN1_ONE ? GEN1_OUTCOME_WIN_TWO : GEN1_OUTCOME_WIN_ONE)
                             : result;
    tell("gen1_room_result", got == want && unchanged(), got, want);
}

/* ---- watching ---- */

static void try_spectator_begin(void) {
    gen1_team one = lawful_team(), two = lawful_team();
    for (uint32_t times = draw(3); times > 0; times--)
        spoil(one_in(2) ? &one : &two);
    uint32_t want = fault_of_new(&one, &two, 0, GEN1_LIMIT);
    gen1_spectator *spectator = block(0, sizeof *spectator);
    const gen1_team *first = block_of(1, &one, sizeof one), *second = block_of(2, &two, sizeof two);
    note();
    uint32_t got = gen1_spectator_begin(spectator, first, second);
    bool is_kept = got != 0 ? unchanged()
                            : changed_only(0, sizeof *spectator) && spectator->held_count == 0 &&
                                  spectator->turn == 0 && spectator->sides[0].count == one.count &&
                                  spectator->sides[1].count == two.count && spectator->sides[0].place == 0;
    tell("gen1_spectator_begin", got == want && is_kept, got, want);
}

/* Whether a spectator knows of a side what gen1_get_state says that it shows. */
static bool is_shown(const gen1_shown_side *shown, const gen1_side_state *side) {
    const gen1_active_state *out = &side->active;
    bool is_right = shown->place == out->place;
    for (int at = 0; at < 6 && shown->count <= 6; at++) {
        const gen1_shown_member *member = &shown->members[at];
        is_right &= at >= shown->count
                        ? member->hp == 0 && member->status == 0 && side->members[at].species == 0
                        : member->hp == side->members[at].hp && member->status == side->members[at].status;
    }
    if (out->place != 0)
        is_right &= memcmp(shown->stages, out->stages, sizeof shown->stages) == 0;
    return is_right && shown->substitute == ((out->conditions & GEN1_CONDITION_SUBSTITUTE) != 0) &&
           shown->confused == ((out->conditions & GEN1_CONDITION_CONFUSED) != 0) &&
           shown->light_screen == ((out->conditions & GEN1_CONDITION_LIGHT_SCREEN) != 0) &&
           shown->reflect == ((out->conditions & GEN1_CONDITION_REFLECT) != 0);
}

/* A battle from its beginning, and a spectator of it that lacks the log of the last update. */
static void watch(gen1_battle *battle, gen1_spectator *spectator, uint8_t log[GEN1_LOG_ROOM], size_t *length) {
    gen1_team one = lawful_team(), two = lawful_team();
    uint8_t seed[10];
    for (int at = 0; at < 10; at++)
        seed[at] = (uint8_t)draw(256);
    memset(spectator, 0, sizeof *spectator);
    *length = 0;
    gen1_new(battle, &one, &two, seed, 0, GEN1_LIMIT);
    gen1_spectator_begin(spectator, &one, &two);
    for (uint32_t updates = draw(one_in(8) ? 100 : 12); updates > 0; updates--) {
        size_t last = *length;
        uint8_t before[GEN1_LOG_ROOM];
        memcpy(before, log, last);
        if (gen1_update(battle, offered(battle, GEN1_ONE), offered(battle, GEN1_TWO), log, GEN1_LOG_ROOM, length) != 0)
            return;
        gen1_spectator_feed(spectator, before, last);
    }
}

/* Feeds the log of an update, cut anywhere; bytes that are not a log, or not a spectator, return a code and change nothing else. */
static void try_spectator_feed(void) {
    gen1_battle battle;
    gen1_spectator from;
    uint8_t log[GEN1_LOG_ROOM];
    size_t length;
    watch(&battle, &from, log, &length);
    bool is_valid = !one_in(4), is_lawful = is_valid && !one_in(3);
    size_t cut = length == 0 ? 0 : draw((uint32_t)length + 1);
    if (is_lawful && gen1_spectator_feed(&from, log, cut) != 0)
        is_lawful = false;
    for (uint32_t changes = is_valid ? 0 : 1 + draw(40); changes > 0; changes--)
        ((uint8_t *)&from)[draw(sizeof from)] = any_byte();
    size_t count = is_lawful ? length - cut : draw(GEN1_LOG_ROOM);
    gen1_spectator *spectator = block_of(0, &from, sizeof from);
    uint8_t *bytes = is_lawful ? block_of(1, log + cut, count) : block(1, count);
    if (!is_lawful && !one_in(4))
        memcpy(bytes, log, count < length ? count : length);
    note();
    uint8_t got = gen1_spectator_feed(spectator, count == 0 ? NULL : bytes, count);
    bool is_right = got != 0 ? unchanged() && (got == GEN1_ERROR_LOG_TAG || got == GEN1_ERROR_LOG_FIELD) && !is_lawful
                             : changed_only(0, sizeof *spectator);
    if (is_lawful && got == 0) {
        gen1_state state;
        gen1_get_state(&battle, &state);
        is_right &= spectator->turn == state.turn && spectator->outcome == state.outcome &&
                    spectator->held_count == 0 && is_shown(&spectator->sides[0], &state.sides[0]) &&
                    is_shown(&spectator->sides[1], &state.sides[1]);
    }
    tell("gen1_spectator_feed", is_right, got, is_lawful ? 0 : got);
}

try_call *const tries_of_rooms[] = {try_room_begin,  try_room_choices,    try_room_submit,    try_room_forfeit,
                                    try_room_result, try_spectator_begin, try_spectator_feed, NULL};
