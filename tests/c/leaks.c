/*
 * Changes hidden bytes of battles of lawful play, and looks whether a side is shown or offered anything else (docs/MECHANICS.md, "What
 * a side is shown of itself"). Which bits are hidden is written here by docs/LAYOUT.md. A change of a foe's bench must not reach the log
 * of an update in which the foe doesn't switch. A host's messages and replies must not depend on what the foe has chosen ("Hosts").
 *
 *     cc -std=c11 -I include tests/c/leaks.c crates/gen1_c/out/libgen1_c.a -o leaks
 *     ./leaks [SEED]
 *
 * Status 0 if 100,000 changes of hidden bits, and as many of hosts, changed nothing that is shown, and each change of shown bits
 * changed it.
 */
#include "gen1.h"

#include <stdbool.h>
#include <stdio.h>
#include <stdlib.h>
#include <string.h>

_Static_assert(sizeof(gen1_own_side) == GEN1_OWN_SIDE_SIZE && _Alignof(gen1_own_side) == 4,
               "the size of what a side is shown");

enum { CHANGES = 100000, SIDE_START = 24, SIDE_SIZE = 180, MEMBER_SIZE = 24, ACTIVE = 144, BYTES = 384 };

static uint64_t state;

static uint32_t draw(uint32_t below) {
    uint64_t it = state += 0x9e3779b97f4a7c15u;
    it = (it ^ (it >> 30)) * 0xbf58476d1ce4e5b9u;
    it = (it ^ (it >> 27)) * 0x94d049bb133111ebu;
    return (uint32_t)((it ^ (it >> 31)) >> 33) % below;
}

/* Teams and play */

static uint8_t any_move(void) {
    for (;;) {
        uint8_t it = (uint8_t)(1 + draw(164));
        if (it != 102 && it != 118 && it != 119 && it != 144)
            return it;
    }
}

static gen1_team any_team(void) {
    gen1_team team;
    memset(&team, 0, sizeof team);
    team.count = (uint8_t)(1 + draw(6));
    for (int place = 0; place < team.count; place++) {
        gen1_member *it = &team.members[place];
        it->species = (uint8_t)(1 + draw(151));
        it->level = (uint8_t)(50 + draw(51));
        for (int at = 0; at < 4; at++) {
            it->dvs[at] = (uint8_t)draw(16);
            do
                it->moves[at] = any_move();
            while (memchr(it->moves, it->moves[at], (size_t)at) != NULL);
        }
    }
    return team;
}

static uint8_t any_choice(const gen1_battle *battle, uint8_t side) {
    uint8_t choices[9], count = gen1_choices(battle, side, choices);
    return count == 0 ? GEN1_CHOICE_PASS : choices[draw(count)];
}

/* What a side sees of a battle */

typedef struct sight {
    gen1_own_side own;
    uint8_t choices[9], count;
} sight;

static sight seen(const gen1_battle *battle, uint8_t side) {
    sight it;
    memset(&it, 0, sizeof it);
    if (gen1_get_own_side(battle, side, &it.own) != 0)
        abort();
    it.count = gen1_choices(battle, side, it.choices);
    return it;
}

/* Which bits of a byte are hidden from a side. The count of sleep in the side's own status is hidden, if it stays above 0. */

static uint8_t hidden_of_member(int at, uint8_t byte) { return at == 23 ? 0xff : at == 14 && (byte & 7) != 0 ? 7 : 0; }

static uint8_t hidden_of_active(int at) {
    return at == 17 ? GEN1_CONDITION_FLINCH : at == 21 || at == 22 || at >= 24 ? 0xff : 0;
}

static uint8_t hidden(uint8_t side, int at, uint8_t byte) {
    if (at < SIDE_START) {
        bool other_request = at == (side == GEN1_ONE ? 18 : 17);
        return (at >= 3 && at <= 15) || other_request ? 0xff : 0;
    }
    bool own = (at < SIDE_START + SIDE_SIZE) == (side == GEN1_ONE);
    int in_side = (at - SIDE_START) % SIDE_SIZE;
    if (!own)
        return (uint8_t)(in_side == ACTIVE + 17 ? 0xff & ~GEN1_CONDITION_TRAPPING : 0xff);
    return in_side < ACTIVE ? hidden_of_member(in_side % MEMBER_SIZE, byte) : hidden_of_active(in_side - ACTIVE);
}

/* The version, the rules, the limit and unused bytes are neither shown nor hidden: both sides know them from the beginning. */
static uint8_t shown(uint8_t side, int at, uint8_t byte) {
    bool known = at == 0 || (at >= 19 && at < SIDE_START);
    bool own_or_header = at < SIDE_START || (at < SIDE_START + SIDE_SIZE) == (side == GEN1_ONE);
    return known || !own_or_header ? 0 : (uint8_t)~hidden(side, at, byte);
}

/* Changes some of these bits of a byte. Returns whether the bytes are another battle; if not, nothing has changed. */
static bool change(gen1_battle *battle, int at, uint8_t bits) {
    uint8_t old = battle->bytes[at], new = (uint8_t)((old & ~bits) | (draw(256) & bits));
    bool sleeps =
        at >= SIDE_START && (at - SIDE_START) % SIDE_SIZE < ACTIVE && (at - SIDE_START) % SIDE_SIZE % MEMBER_SIZE == 14;
    if (new == old || (sleeps && bits == 7 && (new & 7) == 0))
        return false;
    gen1_battle loaded;
    battle->bytes[at] = new;
    if (gen1_load(&loaded, battle->bytes, BYTES) == 0)
        return true;
    battle->bytes[at] = old;
    return false;
}

static long hidden_changes, shown_changes, bench_changes, host_changes;

static int wrong(const char *what, uint8_t side, int at) {
    printf("side %d, byte %d: %s\n", side, at, what);
    return 1;
}

/* Some changes of hidden bits, one after the other, and one of shown bits. Returns how many were wrong. */
static int look(const gen1_battle *battle, uint8_t side) {
    gen1_battle other = *battle;
    sight before = seen(battle, side);
    for (int tries = 0; tries < 24; tries++) {
        int at = (int)draw(BYTES);
        if (!change(&other, at, hidden(side, at, other.bytes[at])))
            continue;
        sight after = seen(&other, side);
        hidden_changes++;
        if (memcmp(&before, &after, sizeof before) != 0)
            return wrong("a hidden bit is seen", side, at);
    }
    other = *battle;
    for (int tries = 0; tries < 8; tries++) {
        int at = (int)draw(BYTES);
        if (!change(&other, at, shown(side, at, other.bytes[at])))
            continue;
        sight after = seen(&other, side);
        shown_changes++;
        if (memcmp(&before.own, &after.own, sizeof before.own) == 0)
            return wrong("a shown bit is not seen", side, at);
        return 0;
    }
    return 0;
}

/* Whether a byte says only what a member of the foe that stays on the bench is, and not whether it lives or has a status. */
static bool of_bench(uint8_t side, int at, const gen1_battle *battle) {
    int foe_start = SIDE_START + (side == GEN1_ONE ? SIDE_SIZE : 0), in_foe = at - foe_start,
        in_member = in_foe % MEMBER_SIZE;
    bool is_out = in_foe / MEMBER_SIZE + 1 == battle->bytes[foe_start + ACTIVE];
    return in_foe >= 0 && in_foe < ACTIVE && !is_out && in_member != 14 && in_member != 23;
}

static bool lives(const gen1_battle *battle, int at) {
    const uint8_t *member = &battle->bytes[at - (at - SIDE_START) % SIDE_SIZE % MEMBER_SIZE];
    return member[4] + member[5] > 0;
}

/* Changes the bench of a foe that doesn't switch: the log of the update, and what is seen after it, stay the same. */
static int look_ahead(const gen1_battle *battle, uint8_t side, uint8_t one, uint8_t two) {
    gen1_battle now = *battle, other = *battle;
    uint8_t log[GEN1_LOG_ROOM], other_log[GEN1_LOG_ROOM];
    size_t length = 0, other_length = 0;
    int at = (int)draw(BYTES);
    bool lived = at >= SIDE_START && lives(battle, at);
    if ((side == GEN1_ONE ? two : one) > 0x20 || !of_bench(side, at, battle) || !change(&other, at, 0xff) ||
        lives(&other, at) != lived)
        return 0;
    if (gen1_update(&now, one, two, log, sizeof log, &length) != 0)
        return 0; /* the battle is over */
    bench_changes++;
    if (gen1_update(&other, one, two, other_log, sizeof other_log, &other_length) != 0)
        return wrong("a pair is refused", side, at);
    sight before = seen(&now, side), after = seen(&other, side);
    if (length != other_length || memcmp(log, other_log, length) != 0 || memcmp(&before, &after, sizeof before) != 0)
        return wrong("the bench is seen", side, at);
    return 0;
}

static int play(void) {
    gen1_battle battle;
    gen1_team one = any_team(), two = any_team();
    uint8_t seed[10], log[GEN1_LOG_ROOM];
    size_t length;
    int faults = 0;
    for (int at = 0; at < 10; at++)
        seed[at] = (uint8_t)draw(256);
    if (gen1_new(&battle, &one, &two, seed, (uint8_t)draw(4), GEN1_LIMIT) != 0)
        abort();
    for (int updates = 0; updates < 60 && faults == 0; updates++) {
        faults += look(&battle, GEN1_ONE) + look(&battle, GEN1_TWO);
        uint8_t first = any_choice(&battle, GEN1_ONE), second = any_choice(&battle, GEN1_TWO);
        for (int tries = 0; tries < 8 && updates > 0; tries++)
            faults += look_ahead(&battle, GEN1_ONE, first, second) + look_ahead(&battle, GEN1_TWO, first, second);
        if (gen1_update(&battle, first, second, log, sizeof log, &length) != 0)
            break;
    }
    return faults;
}

/* Hosts */

/* A row of a side, often for the current pair, and often with a choice that the side is offered. */
static gen1_row any_row(const gen1_host *host, uint8_t side) {
    gen1_row row;
    memset(&row, 0, sizeof row);
    row.kind = (uint8_t)(1 + draw(5));
    row.side = side;
    row.choice = draw(4) != 0 ? any_choice(&host->room.battle, side) : (uint8_t)draw(256);
    row.number = host->room.number + (draw(4) == 0);
    row.has_numbers = (uint8_t)draw(2);
    for (int at = 0; at < 10; at++)
        row.numbers[at] = (uint8_t)draw(256);
    return row;
}

/* The code of a row, at a copy of the host. */
static uint8_t reply_to(gen1_host host, const gen1_row *row) { return gen1_host_apply(&host, row); }

/* Whether two hosts send a side the same bytes; with side 0, the audience. */
static bool sent_alike(const gen1_host *host, const gen1_host *other, uint8_t side) {
    gen1_message messages[2];
    gen1_notice notices[2];
    gen1_host_notice(host, &notices[0]);
    gen1_host_notice(other, &notices[1]);
    if (side == 0)
        return memcmp(&notices[0], &notices[1], sizeof notices[0]) == 0;
    if (gen1_host_message(host, side, &messages[0]) != 0 || gen1_host_message(other, side, &messages[1]) != 0)
        abort();
    return memcmp(&messages[0], &messages[1], sizeof messages[0]) == 0;
}

/* Takes secret rows of the foe, and changes hidden bits of the battle. The messages to the side and the audience stay the same. */
static int look_at_host(const gen1_host *host, uint8_t side) {
    gen1_host other = *host;
    for (uint32_t rows = draw(3); rows > 0; rows--) {
        gen1_row row = any_row(host, (uint8_t)(3 - side));
        if (row.kind <= GEN1_ROW_EXPIRE)
            gen1_host_apply(&other, &row);
    }
    if (gen1_host_number(&other) != gen1_host_number(host))
        return 0; /* the side had chosen, or the foe came too late: the pair has ended */
    gen1_row own = any_row(host, side);
    host_changes++;
    if (reply_to(*host, &own) != reply_to(other, &own))
        return wrong("a reply tells of the foe's choice", side, own.kind);
    int at = (int)draw(BYTES), to_all = (int)draw(BYTES);
    gen1_host unlike = other;
    change(&other.room.battle, at, hidden(side, at, other.room.battle.bytes[at]));
    if (to_all != 16)
        change(&unlike.room.battle, to_all, 0xff);
    return sent_alike(host, &other, side)
               ? (sent_alike(host, &unlike, 0) ? 0 : wrong("the audience is sent it", 0, to_all))
               : wrong("it is sent", side, at);
}

static int play_at_host(void) {
    gen1_host host;
    gen1_team one = any_team(), two = any_team();
    const uint8_t seed[10] = {(uint8_t)draw(256), (uint8_t)draw(256), (uint8_t)draw(256)};
    int faults = 0;
    if (gen1_new(&host.room.battle, &one, &two, seed, (uint8_t)draw(4), GEN1_LIMIT) != 0)
        abort();
    gen1_host_begin(&host, (uint8_t)draw(2), (uint8_t)draw(2), (uint8_t)draw(2));
    for (int rows = 0; rows < 200 && faults == 0; rows++) {
        for (int tries = 0; tries < 4; tries++)
            faults += look_at_host(&host, (uint8_t)(1 + draw(2)));
        gen1_row row = any_row(&host, (uint8_t)(1 + draw(2)));
        if (row.kind < GEN1_ROW_OFFER_DRAW || (row.kind == GEN1_ROW_OFFER_DRAW && draw(16) == 0))
            gen1_host_apply(&host, &row);
    }
    return faults;
}

int main(int argc, char **argv) {
    state = argc > 1 ? strtoull(argv[1], NULL, 0) : 1;
    int faults = 0;
    while (hidden_changes < CHANGES && faults == 0)
        faults += play();
    while (host_changes < CHANGES && faults == 0)
        faults += play_at_host();
    printf("%ld changes of hidden bits, %ld of shown bits, %ld of a foe's bench, %ld of hosts, %d wrong\n",
           hidden_changes, shown_changes, bench_changes, host_changes, faults);
    return faults != 0;
}
