/* Calls of battles, logs and damage with arguments out of their ranges (hostile.c). */
#include "lawful.h"

#include <string.h>

/* ---- gen1_new ---- */

/* The fault of a member by itself, before the rules of teams: its species or a move is not a number of one. */
static uint32_t fault_of_numbers(const gen1_member *it) {
    if (it->species < 1 || it->species > 151)
        return GEN1_ERROR_SPECIES;
    for (int at = 0; at < 4; at++)
        if (it->moves[at] > 165)
            return GEN1_ERROR_MOVE;
    return 0;
}

static bool is_left_out(uint8_t move) { return move == 102 || move == 118 || move == 119 || move == 144; }

/* Whether a move is at two places. */
static bool has_repeated_move(const gen1_member *it) {
    for (int at = 0; at < 4; at++)
        for (int other = 0; other < at; other++)
            if (it->moves[at] != 0 && it->moves[at] == it->moves[other])
                return true;
    return false;
}

/* The first of the rules of teams that a member breaks (docs/MECHANICS.md, "Teams"). */
static uint32_t fault_of_rules(const gen1_member *it) {
    bool has_high_dv = false, has_move = false, has_left_out = false, has_struggle = false, has_many_ups = false;
    for (int at = 0; at < 4; at++) {
        bool is_move = it->moves[at] != 0;
        has_high_dv |= it->dvs[at] > 15;
        has_move |= is_move;
        has_left_out |= is_left_out(it->moves[at]);
        has_struggle |= it->moves[at] == 165;
        has_many_ups |= is_move && it->pp_ups[at] > 3;
    }
    return it->level < 1 || it->level > 100 ? GEN1_ERROR_LEVEL
           : has_high_dv                    ? GEN1_ERROR_DV
           : !has_move                      ? GEN1_ERROR_NO_MOVE
           : has_left_out                   ? GEN1_ERROR_MOVE_LEFT_OUT
           : has_struggle                   ? GEN1_ERROR_STRUGGLE
           : has_repeated_move(it)          ? GEN1_ERROR_REPEATED_MOVE
           : has_many_ups                   ? GEN1_ERROR_PP_UPS
                                            : 0;
}

/* The code of a team, with 256 for each place up to that of the member at fault. */
static uint32_t fault_of_team(const gen1_team *team) {
    if (team->count > 6)
        return GEN1_ERROR_TEAM_TOO_LONG;
    for (uint32_t place = 1; place <= team->count; place++)
        if (fault_of_numbers(&team->members[place - 1]) != 0)
            return fault_of_numbers(&team->members[place - 1]) + 256 * place;
    for (uint32_t place = 1; place <= team->count; place++)
        if (fault_of_rules(&team->members[place - 1]) != 0)
            return fault_of_rules(&team->members[place - 1]) + 256 * place;
    return team->count == 0 ? GEN1_ERROR_TEAM_EMPTY : 0;
}

uint32_t fault_of_new(const gen1_team *one, const gen1_team *two, uint8_t rules, uint16_t limit) {
    if (rules > 3)
        return GEN1_ERROR_RULES;
    if (limit < 1 || limit > 9999)
        return GEN1_ERROR_TURN_LIMIT;
    if (fault_of_team(one) != 0)
        return 65536 + fault_of_team(one);
    return fault_of_team(two) != 0 ? 2 * 65536 + fault_of_team(two) : 0;
}

/* Puts a number that may be out of its range into a team. */
void spoil(gen1_team *team) {
    gen1_member *it = &team->members[draw(6)];
    switch (draw(7)) {
    case 0:
        team->count = any_byte();
        break;
    case 1:
        it->species = one_in(2) ? 152 : any_byte();
        break;
    case 2:
        it->level = one_in(2) ? 101 : any_byte();
        break;
    case 3:
        it->dvs[draw(4)] = one_in(2) ? 16 : any_byte();
        break;
    case 4:
        it->moves[draw(4)] = one_in(2) ? (uint8_t)(100 + draw(68)) : any_byte();
        break;
    case 5:
        it->moves[draw(4)] = one_in(2) ? it->moves[draw(4)] : 0;
        break;
    default:
        it->pp_ups[draw(4)] = one_in(2) ? 4 : any_byte();
        break;
    }
}

static void try_new(void) {
    gen1_team one = lawful_team(), two = lawful_team();
    for (uint32_t times = draw(4); times > 0; times--)
        spoil(one_in(2) ? &one : &two);
    bool is_same = one_in(6); /* both teams are only read, so they may be one */
    if (is_same)
        two = one;
    uint8_t rules = one_in(8) ? any_byte() : (uint8_t)draw(4);
    uint16_t limit = (uint16_t)(one_in(8) ? (one_in(2) ? 10000 : draw(65536)) : 1 + draw(9999));
    uint32_t want = fault_of_new(&one, &two, rules, limit);
    gen1_battle *battle = block(0, sizeof *battle);
    const gen1_team *first = block_of(1, &one, sizeof one), *second = is_same ? first : block_of(2, &two, sizeof two);
    const uint8_t *seed = block(3, 10);
    note();
    uint32_t got = gen1_new(battle, first, second, seed, rules, limit);
    tell("gen1_new", got == want && (want == 0 ? changed_only(0, sizeof *battle) : unchanged()), got, want);
}

/* ---- gen1_load ---- */

static void try_load(void) {
    bool is_valid;
    gen1_battle from = some_battle(&is_valid);
    size_t count = one_in(3) ? draw(GUARDED_ROOM) : 384;
    gen1_battle *battle = block(0, sizeof *battle);
    uint8_t *bytes = block(1, count);
    memcpy(bytes, from.bytes, count < 384 ? count : 384);
    note();
    uint8_t got = gen1_load(battle, count == 0 ? NULL : bytes, count);
    uint8_t version = from.bytes[0];
    uint8_t want = count != 384                 ? GEN1_ERROR_LOAD_LENGTH
                   : version < 1 || version > 3 ? GEN1_ERROR_LOAD_VERSION
                   : is_valid                   ? 0
                                                : got;
    bool is_kept = got != 0 ? unchanged() : changed_only(0, sizeof *battle);
    bool is_loaded = got != 0 || version != 3 || memcmp(battle, &from, sizeof from) == 0;
    tell("gen1_load",
         got == want && (got == 0 || (GEN1_ERROR_LOAD_LENGTH <= got && got <= GEN1_ERROR_LOAD_REQUEST)) && is_kept &&
             is_loaded,
         got, want);
}

/* ---- gen1_choices, gen1_result ---- */

static void try_choices(void) {
    bool is_valid;
    gen1_battle from = some_battle(&is_valid);
    uint8_t side = one_in(2) ? (uint8_t)(1 + draw(2)) : any_byte();
    const gen1_battle *battle = block_of(0, &from, sizeof from);
    uint8_t *choices = block(1, 9);
    note();
    uint8_t got = gen1_choices(battle, side, choices);
    bool is_side = side == GEN1_ONE || side == GEN1_TWO,
         is_kept = is_side && got <= 9 ? changed_only(1, got) : unchanged();
    for (int at = 0; is_side && got <= 9 && at < got; at++) /* in rising order, and each of them a choice */
        is_kept &= (at == 0 || choices[at - 1] < choices[at]) && choices[at] <= GEN1_CHOICE_SWITCH(6);
    tell("gen1_choices", got <= (is_side ? 9 : 0) && is_kept, got, is_side ? got : 0);
}

static void try_result(void) {
    bool is_valid;
    gen1_battle from = some_battle(&is_valid);
    const gen1_battle *battle = block_of(0, &from, sizeof from);
    note();
    uint8_t got = gen1_result(battle);
    bool is_one = GEN1_RESULT_OUTCOME(got) <= GEN1_OUTCOME_FAULT_TWO &&
                  GEN1_RESULT_REQUEST_ONE(got) <= GEN1_REQUEST_SWITCH &&
                  GEN1_RESULT_REQUEST_TWO(got) <= GEN1_REQUEST_SWITCH;
    tell("gen1_result", (is_one || !is_valid) && unchanged(), got, got);
}

/* ---- gen1_update, gen1_update_silent ---- */

/* The code of an update of a valid battle. */
static uint8_t fault_of_update(const gen1_battle *battle, uint8_t one, uint8_t two) {
    if (GEN1_RESULT_OUTCOME(gen1_result(battle)) != GEN1_OUTCOME_ONGOING)
        return GEN1_ERROR_OVER;
    if (!is_offered(battle, GEN1_ONE, one))
        return GEN1_ERROR_NOT_OFFERED_ONE;
    return is_offered(battle, GEN1_TWO, two) ? 0 : GEN1_ERROR_NOT_OFFERED_TWO;
}

/* The size of a buffer for a log: too small for some, or enough for any. */
static size_t log_room(void) { return one_in(4) ? draw(GEN1_LOG_ROOM) : GEN1_LOG_ROOM + draw(3) * 100; }

static void try_update(void) {
    bool is_valid;
    gen1_battle from = some_battle(&is_valid);
    uint8_t one = one_in(2) ? offered(&from, GEN1_ONE) : any_byte(),
            two = one_in(2) ? offered(&from, GEN1_TWO) : any_byte();
    size_t room = log_room();
    gen1_battle *battle = block_of(0, &from, sizeof from);
    uint8_t *log = block(1, room);
    size_t *length = block(2, sizeof *length);
    note();
    uint8_t got = gen1_update(battle, one, two, room == 0 ? NULL : log, room, length);
    uint8_t want = room < GEN1_LOG_ROOM ? GEN1_ERROR_SMALL_LOG : is_valid ? fault_of_update(&from, one, two) : got;
    bool is_kept = unchanged();
    if (got == 0) {
        gen1_battle after = *battle;
        is_kept = *length <= GEN1_LOG_ROOM;
        memcpy(battle, &from, sizeof from);
        is_kept &= changed_only_two(1, *length <= room ? *length : 0, 2, sizeof *length);
        is_kept &= !is_valid || gen1_load(&from, after.bytes, sizeof after.bytes) == 0;
    }
    tell("gen1_update", got == want && (got == GEN1_ERROR_SMALL_LOG || is_update_code(got)) && is_kept, got, want);
}

/* It does what gen1_update does. */
static void try_update_silent(void) {
    bool is_valid;
    gen1_battle from = some_battle(&is_valid), told = from, *battle = block_of(0, &from, sizeof from);
    uint8_t one = one_in(2) ? offered(&from, GEN1_ONE) : any_byte(),
            two = one_in(2) ? offered(&from, GEN1_TWO) : any_byte();
    uint8_t log[GEN1_LOG_ROOM];
    size_t length;
    note();
    uint8_t got = gen1_update_silent(battle, one, two), want = gen1_update(&told, one, two, log, sizeof log, &length);
    bool is_same = !is_valid || memcmp(battle, &told, sizeof told) == 0;
    tell("gen1_update_silent",
         (got == want || !is_valid) && is_update_code(got) && is_same &&
             (got == 0 ? changed_only(0, sizeof from) : unchanged()),
         got, want);
}

/* ---- gen1_update_offered, gen1_update_offered_silent ---- */

static bool is_choice(uint8_t byte) {
    return byte == GEN1_CHOICE_PASS || (GEN1_CHOICE_MOVE(0) <= byte && byte <= GEN1_CHOICE_MOVE(4)) ||
           (GEN1_CHOICE_SWITCH(1) <= byte && byte <= GEN1_CHOICE_SWITCH(6));
}

/* The code of an update that tests only that both bytes are choices. */
static uint8_t fault_of_bytes(uint8_t one, uint8_t two) {
    return !is_choice(one) ? GEN1_ERROR_NOT_OFFERED_ONE : !is_choice(two) ? GEN1_ERROR_NOT_OFFERED_TWO : 0;
}

/* With offered choices it does what gen1_update does; with any others it writes to the same memory and no other. */
static void try_update_offered(void) {
    bool is_valid;
    gen1_battle from = some_battle(&is_valid);
    uint8_t one = one_in(2) ? offered(&from, GEN1_ONE) : any_byte(),
            two = one_in(2) ? offered(&from, GEN1_TWO) : any_byte();
    size_t room = log_room();
    gen1_battle tested = from, *battle = block_of(0, &from, sizeof from);
    uint8_t *log = block(1, room);
    size_t *length = block(2, sizeof *length);
    size_t tested_length = 0;
    uint8_t tested_log[GEN1_LOG_ROOM];
    bool is_offered = is_valid && gen1_update(&tested, one, two, tested_log, sizeof tested_log, &tested_length) == 0;
    note();
    uint8_t got = gen1_update_offered(battle, one, two, room == 0 ? NULL : log, room, length);
    uint8_t want = room < GEN1_LOG_ROOM ? GEN1_ERROR_SMALL_LOG : fault_of_bytes(one, two);
    bool is_kept = unchanged();
    if (got == 0) {
        gen1_battle after = *battle;
        is_kept = *length <= GEN1_LOG_ROOM;
        is_kept &= !is_offered || (memcmp(&after, &tested, sizeof after) == 0 && *length == tested_length &&
                                   memcmp(log, tested_log, tested_length) == 0);
        memcpy(battle, &from, sizeof from);
        is_kept &= changed_only_two(1, *length <= room ? *length : 0, 2, sizeof *length);
    }
    tell("gen1_update_offered", got == want && is_kept, got, want);
}

static void try_update_offered_silent(void) {
    bool is_valid;
    gen1_battle from = some_battle(&is_valid), tested = from, *battle = block_of(0, &from, sizeof from);
    uint8_t one = one_in(2) ? offered(&from, GEN1_ONE) : any_byte(),
            two = one_in(2) ? offered(&from, GEN1_TWO) : any_byte();
    bool is_offered = is_valid && gen1_update_silent(&tested, one, two) == 0;
    note();
    uint8_t got = gen1_update_offered_silent(battle, one, two), want = fault_of_bytes(one, two);
    bool is_same = !is_offered || memcmp(battle, &tested, sizeof tested) == 0;
    tell("gen1_update_offered_silent",
         got == want && is_same && (got == 0 ? changed_only(0, sizeof from) : unchanged()), got, want);
}

/* ---- gen1_next_event, gen1_next_line, gen1_next_sentence ---- */

/* A log of lawful play, some of its bytes changed, or any bytes; in the block 0. */
const uint8_t *some_log(size_t *count) {
    int which = (int)draw(MET);
    *count = one_in(4) ? draw(GEN1_LOG_ROOM + 1) : met_length[which];
    uint8_t *log = block(0, *count);
    if (!one_in(8))
        memcpy(log, met_log[which], *count);
    for (uint32_t changes = *count == 0 ? 0 : draw(4); changes > 0; changes--)
        log[draw((uint32_t)*count)] = any_byte();
    return log;
}

/* An offset in a log, or past its end, or far past it. */
size_t some_place(size_t count) {
    return one_in(4)                 ? SIZE_MAX - draw(3)
           : one_in(4)               ? count + draw(3)
           : one_in(2) || count == 0 ? 0
                                     : draw((uint32_t)count);
}

/* The expected code at an offset, where the byte of the tag determines it; else `otherwise`. */
static uint8_t fault_of_place(const uint8_t *log, size_t count, size_t at, uint8_t otherwise) {
    return at >= count                                 ? GEN1_ERROR_LOG_END
           : log[at] < 1 || log[at] > GEN1_EVENT_FAULT ? GEN1_ERROR_LOG_TAG
                                                       : otherwise;
}

static void try_next_event(void) {
    size_t count;
    const uint8_t *log = some_log(&count);
    size_t from = some_place(count);
    size_t *at = block_of(1, &from, sizeof from);
    gen1_event *event = block(2, sizeof *event);
    note();
    uint8_t got = gen1_next_event(count == 0 ? NULL : log, count, at, event);
    uint8_t want = fault_of_place(log, count, from, got);
    bool is_kept = got != 0 ? unchanged()
                            : changed_only_two(1, sizeof *at, 2, sizeof *event) && *at > from && *at <= count &&
                                  event->tag == log[from];
    tell("gen1_next_event",
         got == want && (got == 0 || (GEN1_ERROR_LOG_TAG <= got && got <= GEN1_ERROR_LOG_END)) && is_kept, got, want);
}

/* An event of a log, some of its fields changed, or any bytes. Where the code is 0, the event that is read again has the same bytes. */
static void try_event_bytes(void) {
    size_t count, from = 0, end = 0;
    const uint8_t *log = some_log(&count);
    gen1_event any, again, *event = block(1, sizeof *event);
    bool is_event = !one_in(4) && gen1_next_event(log, count, &from, &any) == 0;
    if (is_event)
        memcpy(event, &any, sizeof any);
    for (uint32_t changes = one_in(2) ? draw(3) : 0; changes > 0; changes--)
        ((uint8_t *)event)[draw(sizeof *event)] = any_byte();
    is_event = is_event && memcmp(event, &any, sizeof any) == 0;
    uint8_t *bytes = block(2, 10), other[10];
    size_t *length = block(3, sizeof *length);
    note();
    uint8_t got = gen1_event_bytes(event, bytes, length);
    uint8_t want = event->tag < 1 || event->tag > GEN1_EVENT_FAULT ? GEN1_ERROR_LOG_TAG : is_event ? 0 : got;
    bool is_kept = got != 0
                       ? unchanged() && (got == GEN1_ERROR_LOG_TAG || got == GEN1_ERROR_LOG_FIELD)
                       : *length <= 10 && changed_only_two(2, *length, 3, sizeof *length) &&
                             gen1_next_event(bytes, *length, &end, &again) == 0 && end == *length &&
                             event->tag == again.tag && gen1_event_bytes(&again, other, &end) == 0 && end == *length &&
                             memcmp(bytes, other, end) == 0 && (!is_event || memcmp(event, &again, sizeof again) == 0);
    tell("gen1_event_bytes", got == want && is_kept, got, want);
}

static void try_next_line(void) {
    size_t count, length = 0;
    const uint8_t *log = some_log(&count);
    size_t from = some_place(count), end = from, room = one_in(2) ? draw(GEN1_LINE_ROOM) : GEN1_LINE_ROOM;
    char line[GEN1_LINE_ROOM];
    uint8_t whole = gen1_next_line(log, count, &end, line, sizeof line, &length);
    size_t *at = block_of(1, &from, sizeof from), *written = block(3, sizeof *written);
    char *text = block(2, room);
    note();
    uint8_t got = gen1_next_line(count == 0 ? NULL : log, count, at, room == 0 ? NULL : text, room, written);
    uint8_t want = fault_of_place(log, count, from, whole == 0 && length >= room ? GEN1_ERROR_SMALL_TEXT : whole);
    bool is_kept = unchanged();
    if (got == 0) {
        is_kept = *at == end && *written == length && memcmp(text, line, length + 1) == 0 && text[length] == '\0';
        memcpy(at, &from, sizeof from);
        is_kept &= changed_only_two(2, length + 1, 3, sizeof *written);
    }
    tell("gen1_next_line", got == want && is_kept, got, want);
}

/* Any bytes are a narrator, and a sentence that is written again, in exactly the room that it needs, is the same. */
static void try_next_sentence(void) {
    size_t count, length = 0;
    const uint8_t *log = some_log(&count);
    size_t from = some_place(count), end = from, room = one_in(2) ? draw(GEN1_SENTENCE_ROOM) : GEN1_SENTENCE_ROOM;
    gen1_narrator *narrator = block(4, sizeof *narrator), knew, knows;
    for (size_t at = 0; at < sizeof *narrator; at++)
        ((uint8_t *)narrator)[at] = one_in(2) ? (uint8_t)draw(3) : any_byte();
    knew = knows = *narrator;
    char sentence[GEN1_SENTENCE_ROOM];
    uint8_t whole = gen1_next_sentence(log, count, &end, &knows, sentence, sizeof sentence, &length);
    size_t *at = block_of(1, &from, sizeof from), *written = block(3, sizeof *written);
    char *text = block(2, room);
    note();
    uint8_t got =
        gen1_next_sentence(count == 0 ? NULL : log, count, at, narrator, room == 0 ? NULL : text, room, written);
    uint8_t want = fault_of_place(log, count, from, whole == 0 && length >= room ? GEN1_ERROR_SMALL_TEXT : whole);
    bool is_kept = unchanged();
    if (got == 0) {
        is_kept = *at == end && *written == length && memcmp(text, sentence, length + 1) == 0 && text[length] == '\0' &&
                  length > 1 && text[length - 1] == '.' && memcmp(narrator, &knows, sizeof knows) == 0;
        memcpy(at, &from, sizeof from);
        memcpy(narrator, &knew, sizeof knew);
        is_kept &= changed_only_two(2, length + 1, 3, sizeof *written);
    }
    tell("gen1_next_sentence", got == want && is_kept, got, want);
}

/* ---- gen1_damage ---- */

static void try_damage(void) {
    bool is_valid;
    gen1_battle from = some_battle(&is_valid);
    uint8_t side = one_in(2) ? any_byte() : (uint8_t)(1 + draw(2)),
            move = one_in(2) ? any_byte() : (uint8_t)(1 + draw(165));
    bool is_out = GEN1_RESULT_REQUEST_ONE(gen1_result(&from)) != GEN1_REQUEST_NOTHING ||
                  GEN1_RESULT_REQUEST_TWO(gen1_result(&from)) != GEN1_REQUEST_NOTHING;
    const gen1_battle *battle = block_of(0, &from, sizeof from);
    uint16_t *damages = block(1, 39 * sizeof *damages);
    note();
    uint8_t got = gen1_damage(battle, side, move, one_in(2), damages);
    uint8_t want = side != GEN1_ONE && side != GEN1_TWO ? GEN1_ERROR_SIDE
                   : move < 1 || move > 165             ? GEN1_ERROR_MOVE
                                                        : got;
    bool is_kept = got != 0 ? unchanged() : changed_only(1, 39 * sizeof *damages);
    for (int at = 1; got == 0 && at < 39; at++)
        is_kept &= damages[at - 1] <= damages[at];
    is_kept &= !is_valid || got != GEN1_ERROR_NOBODY_OUT || !is_out;
    bool is_code = got == want && (want == GEN1_ERROR_SIDE || want == GEN1_ERROR_MOVE || got == 0 ||
                                   (GEN1_ERROR_UNUSUAL <= got && got <= GEN1_ERROR_NOBODY_OUT));
    tell("gen1_damage", is_code && is_kept, got, want);
}

try_call *const tries_of_battles[] = {
    try_new,
    try_load,
    try_choices,
    try_result,
    try_update,
    try_update_silent,
    try_update_offered,
    try_update_offered_silent,
    try_next_event,
    try_event_bytes,
    try_next_line,
    try_next_sentence,
    try_damage,
    NULL,
};
