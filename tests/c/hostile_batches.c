/* Calls of many battles, of playouts and of exact outcomes with arguments out of their ranges (hostile.c). */
#include "lawful.h"

#include <string.h>

enum { MANY = 8 };

/* The mask of a list of choices. */
static uint16_t mask_of(const gen1_battle *battle, uint8_t side) {
    uint8_t choices[9];
    uint8_t count = gen1_choices(battle, side, choices);
    uint16_t mask = 0;
    for (int at = 0; at < count && count <= 9; at++)
        mask = (uint16_t)(mask | 1u << GEN1_CHOICE_BIT(choices[at]));
    return mask;
}

static void try_offered(void) {
    bool is_valid;
    gen1_battle from = some_battle(&is_valid);
    uint8_t side = one_in(2) ? (uint8_t)(1 + draw(2)) : any_byte();
    bool is_side = side == GEN1_ONE || side == GEN1_TWO;
    const gen1_battle *battle = block_of(0, &from, sizeof from);
    note();
    uint16_t got = gen1_offered(battle, side);
    uint16_t want = !is_side ? 0 : is_valid ? mask_of(&from, side) : got;
    tell("gen1_offered", got == want && got < 4096 && unchanged(), got, want);
}

/* Some battles, in the block of this number; whether all are valid. */
static gen1_battle *some_battles(int number, size_t count, bool *are_valid) {
    gen1_battle *battles = block(number, count * sizeof *battles);
    *are_valid = true;
    for (size_t at = 0; at < count; at++) {
        bool is_valid;
        battles[at] = some_battle(&is_valid);
        *are_valid &= is_valid;
    }
    return battles;
}

/* This count, or sometimes another one. */
static size_t near_count(size_t count) { return one_in(6) ? draw(MANY + 2) : count; }

static void try_offered_many(void) {
    bool are_valid;
    size_t count = draw(MANY + 1), mask_count = near_count(count);
    uint8_t side = one_in(4) ? any_byte() : (uint8_t)(1 + draw(2));
    const gen1_battle *battles = some_battles(0, count, &are_valid);
    uint16_t *masks = block(1, mask_count * sizeof *masks);
    note();
    uint8_t got = gen1_offered_many(battles, count, side, masks, mask_count);
    uint8_t want = side != GEN1_ONE && side != GEN1_TWO ? GEN1_ERROR_SIDE
                   : mask_count != count                ? GEN1_ERROR_LENGTHS
                                                        : 0;
    bool is_kept = got != 0 ? unchanged() : changed_only(1, count * sizeof *masks);
    for (size_t at = 0; got == 0 && at < count; at++)
        is_kept &= masks[at] == gen1_offered(&battles[at], side);
    tell("gen1_offered_many", got == want && is_kept, got, want);
}

static void try_update_many(void) {
    bool are_valid;
    size_t count = draw(MANY + 1), update_count = near_count(count), sizes[BLOCKS] = {0};
    gen1_battle *battles = some_battles(0, count, &are_valid), before[MANY];
    memcpy(before, battles, count * sizeof *battles);
    gen1_batch_update *updates = block(1, update_count * sizeof *updates), asked[2 * MANY];
    for (size_t at = 0; at < count && at < update_count; at++) {
        updates[at].one = one_in(4) ? updates[at].one : offered(&battles[at], GEN1_ONE);
        updates[at].two = one_in(4) ? updates[at].two : offered(&battles[at], GEN1_TWO);
    }
    memcpy(asked, updates, (update_count < 2 * MANY ? update_count : 2 * MANY) * sizeof *updates);
    note();
    uint8_t got = gen1_update_many(battles, count, updates, update_count),
            want = update_count == count ? 0 : GEN1_ERROR_LENGTHS;
    sizes[0] = got == 0 ? count * sizeof *battles : 0;
    sizes[1] = got == 0 ? count * sizeof *updates : 0;
    bool is_kept = changed_only_these(sizes);
    for (size_t at = 0; got == 0 && at < count; at++)
        is_kept &=
            updates[at].one == asked[at].one && updates[at].two == asked[at].two && is_update_code(updates[at].code);
    for (size_t at = 0; got == 0 && at < count && are_valid; at++) {
        uint8_t code = gen1_update_silent(&before[at], asked[at].one, asked[at].two);
        is_kept &= updates[at].code == code && updates[at].result == gen1_result(&before[at]);
        is_kept &= memcmp(&before[at], &battles[at], sizeof before[at]) == 0;
    }
    tell("gen1_update_many", got == want && is_kept, got, want);
}

/* A draw of a generator. */
static uint32_t drawn(uint64_t *generator) {
    *generator = *generator * 6364136223846793005u + 1442695040888963407u;
    return (uint32_t)(*generator >> 32);
}

/* A random step by a call for each part of it. */
static gen1_batch_update stepped(gen1_battle *battle, const gen1_battle *start, uint64_t *generator) {
    uint8_t pair[2] = {GEN1_CHOICE_PASS, GEN1_CHOICE_PASS}, numbers[10], choices[9];
    if (start != NULL && GEN1_RESULT_OUTCOME(gen1_result(battle)) != GEN1_OUTCOME_ONGOING) {
        for (size_t at = 0; at < sizeof numbers; at++)
            numbers[at] = (uint8_t)drawn(generator);
        *battle = *start;
        gen1_reseed(battle, numbers, 0);
    }
    for (uint8_t side = GEN1_ONE; side <= GEN1_TWO; side++) {
        uint8_t count = gen1_choices(battle, side, choices);
        if (count != 0)
            pair[side - 1] = choices[drawn(generator) % count];
    }
    uint8_t code = gen1_update_silent(battle, pair[0], pair[1]);
    return (gen1_batch_update){.one = pair[0], .two = pair[1], .result = gen1_result(battle), .code = code};
}

static bool is_loaded_as_it_is(const gen1_battle *battle) {
    gen1_battle loaded;
    return gen1_load(&loaded, battle->bytes, sizeof battle->bytes) == 0 && memcmp(&loaded, battle, sizeof loaded) == 0;
}

/* A start is read only where its battle is over. */
static void try_step_random_many(void) {
    bool are_valid, are_starts_valid;
    size_t count = draw(MANY + 1), start_count = one_in(3) ? 0 : near_count(count), over_now = 0;
    size_t generator_count = near_count(count), update_count = near_count(count);
    gen1_battle *battles = some_battles(0, count, &are_valid), before[MANY];
    const gen1_battle *starts = some_battles(1, start_count, &are_starts_valid);
    uint64_t *generators = block(2, generator_count * sizeof *generators), seeds[2 * MANY];
    gen1_batch_update *updates = block(3, update_count * sizeof *updates);
    size_t *over = block(4, sizeof *over);
    memcpy(before, battles, count * sizeof *battles);
    memcpy(seeds, generators, generator_count * sizeof *generators);
    note();
    uint8_t got = gen1_step_random_many(battles, count, starts, start_count, generators, generator_count, updates,
                                        update_count, over);
    bool fit = generator_count == count && update_count == count && (start_count == 0 || start_count == count);
    size_t sizes[BLOCKS] = {count * sizeof *battles, 0, count * sizeof *generators, count * sizeof *updates,
                            sizeof *over};
    bool is_kept = got != 0 ? unchanged() : changed_only_these(sizes);
    for (size_t at = 0; got == 0 && at < count; at++) {
        over_now += GEN1_RESULT_OUTCOME(updates[at].result) != GEN1_OUTCOME_ONGOING;
        is_kept &= updates[at].code == 0 || updates[at].code == GEN1_ERROR_OVER;
    }
    is_kept &= got != 0 || *over == over_now;
    for (size_t at = 0; got == 0 && at < count && are_valid; at++) {
        bool is_over = GEN1_RESULT_OUTCOME(gen1_result(&before[at])) != GEN1_OUTCOME_ONGOING;
        if (start_count != 0 && is_over && !is_loaded_as_it_is(&starts[at]))
            continue;
        gen1_batch_update want = stepped(&before[at], start_count != 0 ? &starts[at] : NULL, &seeds[at]);
        is_kept &= memcmp(&want, &updates[at], sizeof want) == 0 && seeds[at] == generators[at];
        is_kept &= memcmp(&before[at], &battles[at], sizeof before[at]) == 0;
    }
    tell("gen1_step_random_many", got == (fit ? 0 : GEN1_ERROR_LENGTHS) && is_kept, got, fit ? 0 : GEN1_ERROR_LENGTHS);
}

static void try_playout(void) {
    bool is_valid;
    gen1_battle from = some_battle(&is_valid), loaded;
    uint32_t rounds = draw(3);
    gen1_playout_options asked = {.seed = draw(UINT32_MAX), .rounds = rounds, .depth = draw(2) * draw(9)};
    for (size_t at = 0; at < sizeof asked.weights && rounds != 0; at++)
        asked.weights[at] = one_in(2) ? 0 : any_byte();
    const gen1_battle *battle = block_of(0, &from, sizeof from);
    gen1_playouts *counts = block(1, sizeof *counts);
    const gen1_playout_options *options = block_of(2, &asked, sizeof asked);
    note();
    uint8_t got = gen1_playout(battle, options, counts), want = gen1_load(&loaded, from.bytes, sizeof from.bytes);
    bool is_kept = got != 0 ? unchanged()
                            : changed_only(1, sizeof *counts) &&
                                  counts->wins_one + counts->wins_two + counts->ties + counts->faults == rounds;
    tell("gen1_playout", got == want && is_kept, got, want);
}

/* Whether the weights and what is left out sum to what the list says. Without options an ordinary update leads to one of the outcomes. */
static bool is_whole(const gen1_battle *from, const gen1_batch_update *by, const gen1_outcome_options *options,
                     const gen1_successor *found, const gen1_outcome_list *list) {
    uint64_t low = list->left_low, high = list->left_high;
    gen1_battle next = *from;
    bool is_there = options->damage_classes != 0 || options->least != 0;
    if (options->least == 0 && (low | high) != 0)
        return false;
    gen1_update_silent(&next, by->one, by->two);
    memcpy(next.bytes + 5, from->bytes + 5, 11); /* the numbers to draw */
    for (uint64_t at = 0; at < list->count; at++) {
        low += found[at].low;
        high += found[at].high + (low < found[at].low);
        is_there |= memcmp(&found[at].battle, &next, sizeof next) == 0;
    }
    return low == list->low && high == list->high && is_there;
}

static void try_outcomes(void) {
    bool is_valid;
    gen1_battle from = some_battle(&is_valid), next = from;
    uint8_t one = one_in(8) ? any_byte() : offered(&from, GEN1_ONE),
            two = one_in(8) ? any_byte() : offered(&from, GEN1_TWO);
    gen1_batch_update by = {.one = one, .two = two};
    gen1_outcome_options asked = {.least = one_in(2) ? 0 : (uint32_t)1 << draw(32),
                                  .damage_classes = one_in(2) ? 0 : any_byte()};
    size_t capacity = draw(GUARDED_ROOM / sizeof(gen1_successor) + 1), places = draw(2) * draw(2 * MANY) + draw(2) * 64;
    const gen1_battle *battle = block_of(0, &from, sizeof from);
    gen1_successor *found = block(1, capacity * sizeof *found);
    uint32_t *table = block(2, places * sizeof *table);
    gen1_outcome_list *list = block(3, sizeof *list);
    const gen1_outcome_options *options = block_of(4, &asked, sizeof asked);
    note();
    uint8_t got = gen1_outcomes(battle, one, two, options, found, capacity, table, places, list);
    uint8_t want = is_valid ? gen1_update_silent(&next, one, two) : 0;
    bool is_short = got == GEN1_ERROR_OUTCOMES || got == GEN1_ERROR_TABLE;
    size_t sizes[BLOCKS] = {0, capacity * sizeof *found, places * sizeof *table, got == 0 ? sizeof *list : 0};
    bool is_right = want == 0 && (got == 0 || is_short) ? changed_only_these(sizes) : got == want && unchanged();
    if (!is_valid)
        is_right = changed_only_these(sizes) && (is_update_code(got) || is_short || got == GEN1_ERROR_DRAWS);
    if (got == 0)
        is_right &= list->count <= capacity && list->count <= places;
    if (got == 0 && is_valid)
        is_right &= is_whole(&from, &by, options, found, list);
    tell("gen1_outcomes", is_right, got, want);
}

static void try_walk_begin(void) {
    bool is_valid;
    gen1_battle from = some_battle(&is_valid), next = from;
    uint8_t one = one_in(8) ? any_byte() : offered(&from, GEN1_ONE),
            two = one_in(8) ? any_byte() : offered(&from, GEN1_TWO);
    const gen1_battle *battle = block_of(0, &from, sizeof from);
    gen1_walk *walk = block(1, sizeof *walk);
    note();
    uint8_t got = gen1_walk_begin(battle, one, two, any_byte(), walk);
    uint8_t want = is_valid ? gen1_update_silent(&next, one, two) : got;
    bool is_right =
        got == 0 ? changed_only(1, sizeof *walk) && memcmp(&walk->battle, &from, sizeof from) == 0 : unchanged();
    tell("gen1_walk_begin", got == want && is_update_code(got) && is_right, got, want);
}

/* Whether a way has a probability above 0 and up to 1, a log that ends after an event, and zeros after it. */
static bool is_way(const gen1_way *way) {
    size_t at = 0, left = sizeof way->log;
    gen1_event event;
    if (way->log_length > sizeof way->log || (way->low == 0 && way->high == 0))
        return false;
    while (gen1_next_event(way->log, way->log_length, &at, &event) == 0)
        ;
    while (left > way->log_length && way->log[left - 1] == 0)
        left--;
    double part = GEN1_WAY_PROBABILITY(way);
    return at == way->log_length && left == way->log_length && 0 < part && part <= 1;
}

/* Whether a walk has a number of draws within its array, `over` is 0 or 1, and the bytes that are not used are 0. */
static bool is_walk(const gen1_walk *walk) {
    bool is_right = walk->count <= 24 && walk->over <= 1 && are_zeros(walk->unused, sizeof walk->unused);
    for (int at = 0; at < 24; at++)
        is_right &= are_zeros(walk->draws[at].unused, sizeof walk->draws[at].unused);
    return is_right;
}

/* A walk of lawful play after some ways; or one with some other bytes. */
static gen1_walk some_walk(bool *is_valid) {
    gen1_walk walk;
    gen1_way way;
    gen1_battle from = some_battle(is_valid);
    uint8_t *bytes = (uint8_t *)&walk;
    while (gen1_walk_begin(&from, offered(&from, GEN1_ONE), offered(&from, GEN1_TWO), one_in(2) ? 0 : any_byte(),
                           &walk) != 0)
        from = some_battle(is_valid);
    for (uint32_t ways = draw(40); ways > 0; ways--)
        gen1_walk_next(&walk, &way);
    if (one_in(2))
        return walk;
    *is_valid = false;
    for (uint32_t changes = 1 + draw(4); changes > 0; changes--)
        bytes[one_in(2) ? sizeof walk - 1 - draw(8) : draw(sizeof walk)] = any_byte();
    return walk;
}

static void try_walk_next(void) {
    bool is_valid;
    gen1_walk from = some_walk(&is_valid), copy = from;
    gen1_way other;
    gen1_walk *walk = block_of(0, &from, sizeof from);
    gen1_way *way = block(1, sizeof *way);
    note();
    uint8_t got = gen1_walk_next(walk, way), again = gen1_walk_next(&copy, &other);
    bool is_right = got == 0 ? changed_only_two(0, sizeof *walk, 1, sizeof *way) : unchanged();
    is_right &= got == 0 || got == GEN1_ERROR_WALK_END || (got == GEN1_ERROR_DRAWS && !is_valid);
    is_right &= memcmp(&walk->battle, &from.battle, sizeof from.battle) == 0 && memcmp(walk, &copy, sizeof copy) == 0;
    if (got == 0)
        is_right &= memcmp(way, &other, sizeof other) == 0 && (!is_valid || (is_way(way) && is_walk(walk)));
    tell("gen1_walk_next", got == again && is_right, got, again);
}

try_call *const tries_of_batches[] = {try_offered,          try_offered_many, try_update_many,
                                      try_step_random_many, try_playout,      try_outcomes,
                                      try_walk_begin,       try_walk_next,    NULL};
