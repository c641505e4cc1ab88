/*
 * Wrong libraries, by which tests/test_c.py tries whether tests/c/hostile.c would find a fault: WRONG says which, and the linker's --wrap puts
 * these calls before those of the library.
 */
#include "gen1.h"

#include <string.h>

uint32_t __real_gen1_new(gen1_battle *, const gen1_team *, const gen1_team *, const uint8_t[10], uint8_t, uint16_t);
uint8_t __real_gen1_load(gen1_battle *, const uint8_t *, size_t);
uint8_t __real_gen1_choices(const gen1_battle *, uint8_t, uint8_t[9]);
uint16_t __real_gen1_offered(const gen1_battle *, uint8_t);
uint8_t __real_gen1_update(gen1_battle *, uint8_t, uint8_t, uint8_t *, size_t, size_t *);
uint8_t __real_gen1_next_event(const uint8_t *, size_t, size_t *, gen1_event *);
uint8_t __real_gen1_next_line(const uint8_t *, size_t, size_t *, char *, size_t, size_t *);
uint8_t __real_gen1_damage(const gen1_battle *, uint8_t, uint8_t, bool, uint16_t[39]);
void __real_gen1_room_begin(gen1_room *);
uint8_t __real_gen1_room_submit(gen1_room *, uint8_t, uint32_t, uint8_t);
uint8_t __real_gen1_spectator_feed(gen1_spectator *, const uint8_t *, size_t);
uint8_t __real_gen1_odds_now(const gen1_battle *, uint8_t, uint8_t, gen1_odds *);
uint32_t __real_gen1_odds_between(const gen1_member *, const gen1_member *, uint8_t, gen1_odds *);
uint8_t __real_gen1_walk_begin(const gen1_battle *, uint8_t, uint8_t, uint8_t, gen1_walk *);
uint8_t __real_gen1_walk_next(gen1_walk *, gen1_way *);
uint8_t __real_gen1_host_apply(gen1_host *, const gen1_row *);
uint8_t __real_gen1_host_message(const gen1_host *, uint8_t, gen1_message *);
void __real_gen1_host_notice(const gen1_host *, gen1_notice *);
uint8_t __real_gen1_outcomes(const gen1_battle *, uint8_t, uint8_t, const gen1_outcome_options *, gen1_successor *,
                             size_t, uint32_t *, size_t, gen1_outcome_list *);

/* 1: a DV of 16 is taken as 15, so that its team is accepted. 2: a refused battle is emptied. */
uint32_t __wrap_gen1_new(gen1_battle *battle, const gen1_team *one, const gen1_team *two, const uint8_t seed[10],
                         uint8_t rules, uint16_t limit) {
    gen1_team lenient = *one;
    for (int at = 0; at < 6; at++)
        if (lenient.members[at].dvs[0] == 16)
            lenient.members[at].dvs[0] = 15;
    uint32_t answer = __real_gen1_new(battle, WRONG == 1 ? &lenient : one, two, seed, rules, limit);
    if (WRONG == 2 && answer != 0)
        memset(battle, 0, sizeof *battle);
    return answer;
}

/* 3: one byte more than a battle has is allowed. */
uint8_t __wrap_gen1_load(gen1_battle *battle, const uint8_t *bytes, size_t count) {
    return __real_gen1_load(battle, bytes, WRONG == 3 && count > 384 ? 384 : count);
}

/* 4: a choice is written after the last. */
uint8_t __wrap_gen1_choices(const gen1_battle *battle, uint8_t side, uint8_t choices[9]) {
    uint8_t count = __real_gen1_choices(battle, side, choices);
    if (WRONG == 4 && count < 9)
        choices[count] ^= 1;
    return count;
}

/* 5: a byte is written after the log. 6: the length is set at a refusal. 7: a finished battle returns choices that are not offered. */
uint8_t __wrap_gen1_update(gen1_battle *battle, uint8_t one, uint8_t two, uint8_t *log, size_t room, size_t *length) {
    uint8_t answer = __real_gen1_update(battle, one, two, log, room, length);
    if (WRONG == 5 && answer == 0 && *length < room)
        log[*length] ^= 1;
    if (WRONG == 6 && answer != 0)
        *length = 0;
    return WRONG == 7 && answer == GEN1_ERROR_OVER ? GEN1_ERROR_NOT_OFFERED_ONE : answer;
}

/* 8: the byte after the log is read. 9: the offset moves at a fault. */
uint8_t __wrap_gen1_next_event(const uint8_t *log, size_t count, size_t *at, gen1_event *event) {
    if (WRONG == 8 && count > 0 && *(const volatile uint8_t *)(log + count) == 0)
        return __real_gen1_next_event(log, count, at, event);
    uint8_t answer = __real_gen1_next_event(log, count, at, event);
    if (WRONG == 9 && answer != 0)
        *at += 1;
    return answer;
}

/* 10: the line does not end in NUL. */
uint8_t __wrap_gen1_next_line(const uint8_t *log, size_t count, size_t *at, char *text, size_t room, size_t *length) {
    uint8_t answer = __real_gen1_next_line(log, count, at, text, room, length);
    if (WRONG == 10 && answer == 0)
        text[*length] = '\n';
    return answer;
}

/* 11: side 3 is taken as side 1. */
uint8_t __wrap_gen1_damage(const gen1_battle *battle, uint8_t side, uint8_t move, bool critical, uint16_t damages[39]) {
    return __real_gen1_damage(battle, WRONG == 11 && side == 3 ? 1 : side, move, critical, damages);
}

/* 12: a side is refused since the other has chosen. 13: a choice that is not offered is kept. 14: the old log stays. 28: a pair writes
   the unused bytes. */
uint8_t __wrap_gen1_room_submit(gen1_room *room, uint8_t side, uint32_t number, uint8_t choice) {
    uint32_t before = room->number;
    if (WRONG == 12 && (side == GEN1_ONE || side == GEN1_TWO) && room->chosen[2 - side] > GEN1_CHOICE_PASS &&
        room->chosen[2 - side] != GEN1_DUE)
        return GEN1_ERROR_CHOSEN;
    uint8_t answer = __real_gen1_room_submit(room, side, number, choice);
    if (WRONG == 13 && answer == GEN1_ERROR_NOT_OFFERED)
        room->chosen[side - 1] = choice;
    if (WRONG == 14 && answer == 0 && room->number != before)
        room->log_length = 0;
    if (WRONG == 28 && answer == 0 && room->number != before)
        room->unused[0] = 1;
    return answer;
}

/* 15: the held part of an event is dropped. 16: the prefix of a log with a fault is read. */
uint8_t __wrap_gen1_spectator_feed(gen1_spectator *spectator, const uint8_t *log, size_t count) {
    if (WRONG == 15)
        spectator->held_count = 0;
    uint8_t answer = __real_gen1_spectator_feed(spectator, log, count);
    for (size_t front = count; WRONG == 16 && answer != 0 && front > 0; front--)
        if (__real_gen1_spectator_feed(spectator, log, front - 1) == 0)
            break;
    return answer;
}

/* 17: one draw more hits. 18: one draw less is critical. */
uint8_t __wrap_gen1_odds_now(const gen1_battle *battle, uint8_t side, uint8_t move, gen1_odds *odds) {
    uint8_t answer = __real_gen1_odds_now(battle, side, move, odds);
    if (WRONG == 17 && answer == 0 && odds->hit_draws > 0 && odds->hit_draws < 256)
        odds->hit_draws++;
    if (WRONG == 18 && answer == 0 && odds->critical_draws > 0)
        odds->critical_draws--;
    return answer;
}

/* 19: the user's member is its own foe. */
uint32_t __wrap_gen1_odds_between(const gen1_member *user, const gen1_member *foe, uint8_t move, gen1_odds *odds) {
    uint32_t answer = __real_gen1_odds_between(user, foe, move, odds);
    return WRONG == 19 && answer == 0 ? __real_gen1_odds_between(user, user, move, odds) : answer;
}

/* 20: an outcome is missing. 21: the list is written at a refusal. 27: what is left out has no weight. */
uint8_t __wrap_gen1_outcomes(const gen1_battle *battle, uint8_t one, uint8_t two, const gen1_outcome_options *options,
                             gen1_successor *successors, size_t capacity, uint32_t *table, size_t table_size,
                             gen1_outcome_list *list) {
    uint8_t answer = __real_gen1_outcomes(battle, one, two, options, successors, capacity, table, table_size, list);
    if (WRONG == 20 && answer == 0 && list->count > 1)
        list->count--;
    if (WRONG == 21 && answer != 0)
        list->count = 0;
    if (WRONG == 27 && answer == 0)
        list->left_low = list->left_high = 0;
    return answer;
}

static bool is_battle(const gen1_battle *battle) {
    gen1_battle copy;
    return __real_gen1_load(&copy, battle->bytes, sizeof battle->bytes) == 0;
}

/* 22: a mask of bytes that are not a battle has a thirteenth bit. */
uint16_t __wrap_gen1_offered(const gen1_battle *battle, uint8_t side) {
    uint16_t mask = __real_gen1_offered(battle, side);
    return (uint16_t)(WRONG == 22 && mask != 0 && !is_battle(battle) ? mask | 4096 : mask);
}

/* 23: a room of bytes that are not a battle has a log that is longer than its buffer. 29: it begins with pair 7. */
void __wrap_gen1_room_begin(gen1_room *room) {
    bool is_one = is_battle(&room->battle);
    __real_gen1_room_begin(room);
    if (WRONG == 23 && !is_one)
        room->log_length = 65535;
    if (WRONG == 29 && !is_one)
        room->number = 7;
}

/* 24: a walk has the battle after the update. */
uint8_t __wrap_gen1_walk_begin(const gen1_battle *battle, uint8_t one, uint8_t two, uint8_t damage_classes,
                               gen1_walk *walk) {
    uint8_t answer = __real_gen1_walk_begin(battle, one, two, damage_classes, walk);
    if (WRONG == 24 && answer == 0)
        gen1_update_silent(&walk->battle, one, two);
    return answer;
}

/* 25: a byte is written after the log. 26: a way is written after the last. 30: a walk that ends is marked by 2. */
uint8_t __wrap_gen1_walk_next(gen1_walk *walk, gen1_way *way) {
    uint8_t answer = __real_gen1_walk_next(walk, way);
    if (WRONG == 25 && answer == 0 && way->log_length < sizeof way->log)
        way->log[way->log_length] ^= 1;
    if (WRONG == 26 && answer == GEN1_ERROR_WALK_END)
        way->low = 0;
    if (WRONG == 30 && answer == 0 && walk->over == 1)
        walk->over = 2;
    return answer;
}

/* 31: the numbers of a row are left out. 32: a refused row withdraws the offer of a draw. */
uint8_t __wrap_gen1_host_apply(gen1_host *host, const gen1_row *row) {
    gen1_row numberless = *row;
    numberless.has_numbers = 0;
    uint8_t answer = __real_gen1_host_apply(host, WRONG == 31 ? &numberless : row);
    if (WRONG == 32 && answer != 0)
        host->draw = 0;
    return answer;
}

/* 33: a side is sent the other side's own side. */
uint8_t __wrap_gen1_host_message(const gen1_host *host, uint8_t side, gen1_message *message) {
    uint8_t answer = __real_gen1_host_message(host, side, message);
    if (WRONG == 33 && answer == 0)
        gen1_get_own_side(&host->room.battle, (uint8_t)(3 - side), &message->own);
    return answer;
}

/* 34: the audience is sent what side 1 is. */
void __wrap_gen1_host_notice(const gen1_host *host, gen1_notice *notice) {
    gen1_message message;
    __real_gen1_host_notice(host, notice);
    if (WRONG == 34 && __real_gen1_host_message(host, GEN1_ONE, &message) == 0)
        memcpy(notice->log, message.log, sizeof notice->log);
}
