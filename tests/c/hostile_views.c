/* Calls of names, codes in words, states, choices and new numbers to draw, with arguments out of their ranges (hostile.c). */
#include "lawful.h"

#include <string.h>

static void try_version(void) {
    note();
    uint32_t got = gen1_version();
    tell("gen1_version", got == GEN1_VERSION_NUMBER && unchanged(), got, GEN1_VERSION_NUMBER);
}

static void try_build(void) {
    note();
    const char *text = gen1_build();
    bool known = strncmp(text, "proved, ", 8) == 0 || strncmp(text, "plain, ", 7) == 0 || strcmp(text, "unknown") == 0;
    bool whole = memchr(text, 0, 256) != NULL && text == gen1_build();
    tell("gen1_build", known && whole && unchanged(), known, 1);
}

/* A name of the tables, or bytes that are not a name. */
static const char *some_name(const char *name, size_t *count, bool *is_name) {
    *is_name = one_in(2);
    *count = *is_name ? strlen(name) : draw(40);
    char *text = block(0, *count);
    if (*is_name)
        memcpy(text, name, *count);
    else
        memset(text, 0x80 + (int)draw(128), *count);
    return text;
}

static void try_species_from_name(void) {
    size_t count;
    bool is_name;
    const char *text = some_name("Mr. Mime", &count, &is_name);
    note();
    uint8_t got = gen1_species_from_name(text, count), want = is_name ? GEN1_SPECIES_MR_MIME : 0;
    tell("gen1_species_from_name", got == want && unchanged(), got, want);
}

static void try_move_from_name(void) {
    size_t count;
    bool is_name;
    const char *text = some_name("Hi Jump Kick", &count, &is_name);
    note();
    uint8_t got = gen1_move_from_name(text, count), want = is_name ? GEN1_MOVE_HIGH_JUMP_KICK : 0;
    tell("gen1_move_from_name", got == want && unchanged(), got, want);
}

/* Whether the state agrees with what other calls return. */
static void try_view(void) {
    bool is_valid;
    gen1_battle from = some_battle(&is_valid);
    const gen1_battle *battle = block_of(0, &from, sizeof from);
    gen1_state *state = block(1, sizeof *state);
    note();
    gen1_get_state(battle, state);
    bool is_right = changed_only(1, sizeof *state);
    uint32_t result = gen1_result(&from);
    if (is_valid)
        is_right = is_right && state->outcome == GEN1_RESULT_OUTCOME(result) &&
                   state->requests[0] == GEN1_RESULT_REQUEST_ONE(result) &&
                   state->requests[1] == GEN1_RESULT_REQUEST_TWO(result) && state->index <= 8;
    tell("gen1_get_state", is_right, state->outcome, GEN1_RESULT_OUTCOME(result));
}

static bool is_choice(uint8_t byte) {
    return byte == GEN1_CHOICE_PASS || (GEN1_CHOICE_MOVE(0) <= byte && byte <= GEN1_CHOICE_MOVE(4)) ||
           (GEN1_CHOICE_SWITCH(1) <= byte && byte <= GEN1_CHOICE_SWITCH(6));
}

static void try_choice_kind(void) {
    uint8_t byte = any_byte();
    note();
    uint8_t got = gen1_choice_kind(byte), want = is_choice(byte) ? (uint8_t)(byte / 16 + 1) : GEN1_KIND_NONE;
    tell("gen1_choice_kind", got == want && unchanged(), got, want);
}

static void try_choice_slot(void) {
    uint8_t byte = any_byte();
    note();
    uint8_t got = gen1_choice_slot(byte), want = is_choice(byte) ? byte % 16 : 0;
    tell("gen1_choice_slot", got == want && unchanged(), got, want);
}

/* Where the code is 0, the numbers are the given ones, and nothing else has changed. */
/* The lowest byte of each of ten draws of the generator of gen1_playout. */
static void try_seed_from_number(void) {
    uint64_t number = (uint64_t)draw(1u << 31) << 33 ^ draw(1u << 31), state = number;
    uint8_t *seed = block(1, 10), due[10];
    for (int at = 0; at < 10; at++) {
        state = state * 6364136223846793005u + 1442695040888963407u;
        due[at] = (uint8_t)(state >> 32);
    }
    note();
    gen1_seed_from_number(number, seed);
    tell("gen1_seed_from_number", changed_only(1, sizeof due) && memcmp(seed, due, sizeof due) == 0, seed[0], due[0]);
}

static void try_reseed(void) {
    bool is_valid;
    gen1_battle from = some_battle(&is_valid);
    gen1_battle *battle = block_of(0, &from, sizeof from);
    const uint8_t *seed = block(1, 10);
    uint8_t index = one_in(2) ? (uint8_t)draw(9) : any_byte();
    note();
    uint8_t got = gen1_reseed(battle, seed, index), want = index <= 8 ? 0 : GEN1_ERROR_INDEX;
    bool is_kept = got == 0 ? changed_only(0, sizeof from) : unchanged();
    if (got == 0) {
        from.bytes[5] = index;
        memcpy(from.bytes + 6, seed, 10);
    }
    bool is_due = memcmp(battle, &from, sizeof from) == 0;
    tell("gen1_reseed", got == want && is_kept && (is_due || !is_valid), got, want);
}

/* Whether a call has written its text to blocks 1 and 2 as it must; `due` is the code where there is room. */
static void tell_text(const char *name, uint8_t got, uint8_t due, const char *text, const size_t *length, size_t room) {
    if (got != 0)
        tell(name, unchanged() && got == (due != 0 ? due : GEN1_ERROR_SMALL_TEXT), got, due);
    else
        tell(name,
             due == 0 && 0 < *length && *length < room && text[*length] == '\0' &&
                 changed_only_two(1, *length + 1, 2, sizeof *length),
             got, due);
}

static void try_name(const char *name, uint8_t (*call)(uint8_t, char *, size_t, size_t *), uint8_t first,
                     uint8_t last) {
    size_t room = draw(40);
    uint8_t number = any_byte();
    char *text = block(1, room);
    size_t *length = block(2, sizeof *length);
    note();
    uint8_t got = call(number, text, room, length);
    tell_text(name, got, first <= number && number <= last ? 0 : GEN1_ERROR_UNKNOWN, text, length, room);
}

static void try_species_name(void) { try_name("gen1_species_name", gen1_species_name, 1, 151); }
static void try_move_name(void) { try_name("gen1_move_name", gen1_move_name, 1, 165); }
static void try_type_name(void) { try_name("gen1_type_name", gen1_type_name, 0, 14); }

static void try_error_text(void) {
    /* The first and the last code of each family. */
    static const uint8_t families[][2] = {
        {0, GEN1_ERROR_FOES},
        {GEN1_ERROR_LOAD_LENGTH, GEN1_ERROR_STATE},
        {GEN1_ERROR_OVER, GEN1_ERROR_DRAWS},
        {GEN1_ERROR_LOG_TAG, GEN1_ERROR_WALK_END},
        {GEN1_ERROR_SIDE, GEN1_ERROR_PLACE},
        {GEN1_ERROR_UNUSUAL, GEN1_ERROR_NOBODY_OUT},
        {GEN1_ERROR_STALE, GEN1_ERROR_AMBIGUOUS},
        {GEN1_ERROR_TEXT_SPECIES, GEN1_ERROR_UNWRITABLE},
        {GEN1_ERROR_HOST_NUMBER, GEN1_ERROR_HOST_UNUSED},
        {GEN1_ERROR_NOT_GOING_ON, GEN1_ERROR_GUESS_HP},
    };
    size_t room = draw(140);
    uint8_t code = any_byte();
    bool is_code = false;
    for (size_t at = 0; at < sizeof families / sizeof families[0]; at++)
        is_code |= families[at][0] <= code && code <= families[at][1];
    char *text = block(1, room);
    size_t *length = block(2, sizeof *length);
    note();
    uint8_t got = gen1_error_text(code, text, room, length);
    tell_text("gen1_error_text", got, is_code ? 0 : GEN1_ERROR_UNKNOWN, text, length, room);
}

static void try_species_stats(void) {
    uint8_t species = any_byte();
    gen1_base *base = block(0, sizeof *base);
    note();
    uint8_t got = gen1_species_stats(species, base), want = 1 <= species && species <= 151 ? 0 : GEN1_ERROR_UNKNOWN;
    tell("gen1_species_stats", got == want && (got == 0 ? changed_only(0, sizeof *base) : unchanged()), got, want);
}

static void try_move_data(void) {
    uint8_t move = any_byte();
    gen1_move *row = block(0, sizeof *row);
    note();
    uint8_t got = gen1_move_data(move, row), want = 1 <= move && move <= 165 ? 0 : GEN1_ERROR_UNKNOWN;
    tell("gen1_move_data", got == want && (got == 0 ? changed_only(0, sizeof *row) : unchanged()), got, want);
}

static void try_effectiveness(void) {
    uint8_t attack = one_in(2) ? (uint8_t)draw(16) : any_byte(), foe = one_in(2) ? (uint8_t)draw(16) : any_byte();
    uint8_t *tenths = block(0, 1);
    note();
    uint8_t got = gen1_effectiveness(attack, foe, tenths), want = attack <= 14 && foe <= 14 ? 0 : GEN1_ERROR_UNKNOWN;
    bool is_factor = *tenths == 0 || *tenths == 5 || *tenths == 10 || *tenths == 20;
    tell("gen1_effectiveness", got == want && (got == 0 ? is_factor && changed_only(0, 1) : unchanged()), got, want);
}

/* Where a valid battle returns GEN1_ERROR_NOBODY is not computed here. */
static void try_choice_words(void) {
    bool is_valid;
    gen1_battle from = some_battle(&is_valid);
    const gen1_battle *battle = block_of(0, &from, sizeof from);
    size_t room = draw(40);
    uint8_t side = one_in(2) ? (uint8_t)(1 + draw(2)) : any_byte(), byte = any_byte();
    char *text = block(1, room);
    size_t *length = block(2, sizeof *length);
    note();
    uint8_t got = gen1_choice_words(battle, side, byte, text, room, length);
    uint8_t due = side != GEN1_ONE && side != GEN1_TWO ? GEN1_ERROR_SIDE : !is_choice(byte) ? GEN1_ERROR_CHOICE : 0;
    if (due == 0 && got == GEN1_ERROR_NOBODY)
        due = GEN1_ERROR_NOBODY;
    tell_text("gen1_choice_words", got, due, text, length, room);
}

/* Words of an offered choice are this choice; for any bytes and any text only the codes are known. */
static void try_choice_from_words(void) {
    static const uint8_t fitting[] = {'1', '2', '6', ' ', 'p', 'A', 0};
    bool is_valid;
    gen1_battle from = some_battle(&is_valid);
    const gen1_battle *battle = block_of(0, &from, sizeof from);
    uint8_t side = one_in(8) ? any_byte() : (uint8_t)(1 + draw(2)), offered[9], due = 0;
    char words[GEN1_WORDS_ROOM];
    size_t count = 0, room = draw(24), choices = gen1_choices(battle, side, offered);
    bool is_said = is_valid && choices > 0 && one_in(2);
    if (is_said)
        is_said = gen1_choice_words(battle, side, due = offered[draw(choices)], words, sizeof words, &count) == 0;
    char *text = is_said ? block_of(1, words, count) : block(1, count = room);
    for (size_t at = 0; !is_said && at < count; at++)
        text[at] = (char)(one_in(2) ? fitting[draw(sizeof fitting)] : any_byte());
    uint8_t *choice = block(2, sizeof *choice);
    note();
    uint8_t got = gen1_choice_from_words(battle, side, count == 0 ? NULL : text, count, choice);
    bool is_side = side == GEN1_ONE || side == GEN1_TWO, is_due = is_said ? got == 0 && *choice == due : true;
    is_due &= is_side
                  ? got == 0 || got == GEN1_ERROR_WORDS || got == GEN1_ERROR_NOT_OFFERED || got == GEN1_ERROR_AMBIGUOUS
                  : got == GEN1_ERROR_SIDE;
    is_due &= got == 0 ? is_choice(*choice) && changed_only(2, sizeof *choice) : unchanged();
    tell("gen1_choice_from_words", is_due, got, is_said ? 0 : got);
}

try_call *const tries_of_views[] = {try_version,
                                    try_build,
                                    try_species_from_name,
                                    try_move_from_name,
                                    try_view,
                                    try_choice_kind,
                                    try_choice_slot,
                                    try_reseed,
                                    try_seed_from_number,
                                    try_species_name,
                                    try_move_name,
                                    try_type_name,
                                    try_error_text,
                                    try_species_stats,
                                    try_move_data,
                                    try_effectiveness,
                                    try_choice_words,
                                    try_choice_from_words,
                                    NULL};
