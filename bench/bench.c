/*
 * Plays battles of recorded full teams with seeded random choices, and times the updates.
 *
 *     bench/run                   in the repository, after `rt lib` in crates/gen1_c: builds this file and runs it; where
 *                                 valgrind is installed, it counts instructions too
 *     bench/run BATTLES SEED      another number of battles (10,000), another seed (1)
 *     bench/run --json ..         the same numbers as one line of JSON
 *
 * Without bench/run: cc -O2 -pthread -Iinclude bench/bench.c crates/gen1_c/out/libgen1_c.a -o bench_program, then
 *
 *     bench_program BATTLES SEED            the table
 *     bench_program BATTLES SEED more       its further rows: playouts, many battles in turn, threads
 *     bench_program BATTLES SEED json       all rows as the members of a JSON object, without its braces
 *
 * and for callgrind modes that print the number of updates:
 *
 *     bench_program BATTLES SEED quiet      each battle once, without log: --toggle-collect=gen1_update_silent, or
 *                                           gen1_choices, which is called for both sides
 *     bench_program BATTLES SEED log        the same with log: --toggle-collect=gen1_update
 *     bench_program BATTLES SEED listed     and once more by choices drawn as they go: --toggle-collect=replay_choosing
 *     bench_program BATTLES SEED masked     the same by masks: --toggle-collect=replay_masked, or gen1_offered
 *     bench_program BATTLES SEED playout    and once in calls of gen1_playout: --toggle-collect=gen1_playout
 *     bench_program BATTLES SEED trusted    and once by the call that does not test choices again, where there is one
 *     bench_program BATTLES SEED masked_trusted    and by masks and that call: --toggle-collect=replay_masked_trusted
 *     bench_program BATTLES SEED moves      only the updates in which both sides move: --toggle-collect=counted_update. Likewise
 *                                           mixed (one of them switches), switches (both do) and replacements
 *
 * A last argument PERCENT, as in `bench_program BATTLES SEED log 85`, is how often a side moves if it may also switch. Without it
 * each offered choice has the same chance. Mode sum prints a checksum of the battles and the logs of all updates.
 *
 * UNTESTED is the name of the call that does not test choices, if the header has it: an update without a log, by choices that the
 * caller took from the offered ones.
 *
 * A seed gives the same battles on every machine. First they are played and their choices stored. Then the same updates are timed:
 * calls of gen1_update_silent or gen1_update, and a copy of 384 bytes for each battle.
 */
#define _POSIX_C_SOURCE 199309L
#include <pthread.h>
#include <stdio.h>
#include <stdlib.h>
#include <string.h>
#include <time.h>

#include "gen1.h"
#include "teams.h"

enum { ROUNDS = 7, BATCH = 1024, MOST_THREADS = 4, TEAM_COUNT = sizeof TEAMS / sizeof TEAMS[0] };

/* The start of a battle, and the indexes at which its pairs of choices begin and end. */
typedef struct {
    gen1_battle start;
    size_t first, end;
} game;

static game *games;
static size_t game_count;

/* The choices of all updates, side 1's before side 2's. */
static uint8_t (*pairs)[2];
static size_t pair_count, pair_room;

static uint64_t state;

/* The next number of a xorshift, from 0 to below `bound`; all are equally likely, up to parts in 2^50. */
static uint32_t below(uint32_t bound) {
    state ^= state << 13;
    state ^= state >> 7;
    state ^= state << 17;
    return (uint32_t)((state >> 6) % bound);
}

static void fail(const char *what) {
    fprintf(stderr, "bench: %s\n", what);
    exit(1);
}

static void *grown(void *memory, size_t size) {
    memory = realloc(memory, size);
    if (memory == NULL)
        fail("no memory");
    return memory;
}

static gen1_battle new_battle(void) {
    gen1_battle battle;
    uint8_t seed[10];
    const gen1_team *one = &TEAMS[below(TEAM_COUNT)], *two = &TEAMS[below(TEAM_COUNT)];
    for (int place = 0; place < 10; place++)
        seed[place] = (uint8_t)below(256);
    if (gen1_new(&battle, one, two, seed, 0, GEN1_LIMIT) != 0)
        fail("a team was refused");
    return battle;
}

/* How often a side moves if it may also switch, in percent; 0 if each offered choice has the same chance. */
static uint32_t move_percent;

static uint8_t chosen(const gen1_battle *battle, uint8_t side) {
    uint8_t choices[9];
    uint32_t count = gen1_choices(battle, side, choices), moves = 0;
    if (move_percent == 0)
        return choices[below(count)];
    while (moves < count && choices[moves] < GEN1_CHOICE_SWITCH(1))
        moves++;
    if (moves == 0 || moves == count)
        return choices[below(count)];
    return below(100) < move_percent ? choices[below(moves)] : choices[moves + below(count - moves)];
}

static bool is_going_on(const gen1_battle *battle) {
    return GEN1_RESULT_OUTCOME(gen1_result(battle)) == GEN1_OUTCOME_ONGOING;
}

/* The number of draws between the link numbers before an update and those after it: fewer than the 2,304 states. */
static unsigned draws_between(const gen1_battle *before, const gen1_battle *after) {
    uint8_t ring[10];
    unsigned draws = 0;
    memcpy(ring, before->bytes + 5, 10);
    while (memcmp(ring, after->bytes + 5, 10) != 0) {
        ring[0]++;
        draws++;
        if (ring[0] < 9)
            continue;
        ring[0] = 0;
        for (int place = 1; place < 10; place++)
            ring[place] = (uint8_t)(5 * ring[place] + 1);
    }
    return draws;
}

static void keep_pair(uint8_t one, uint8_t two) {
    if (pair_count == pair_room) {
        pair_room = 2 * pair_room + 1024;
        pairs = grown(pairs, pair_room * sizeof *pairs);
    }
    pairs[pair_count][0] = one;
    pairs[pair_count][1] = two;
    pair_count++;
}

/* The log of an update. */
static uint8_t log_bytes[GEN1_LOG_ROOM];

/* Plays a new battle to its end, with or without log, and stores its start and its choices. Returns the number of draws. */
static uint64_t play(game *game, bool with_log) {
    gen1_battle battle = new_battle(), before;
    uint64_t draws = 0;
    size_t length;
    game->start = battle;
    game->first = pair_count;
    while (is_going_on(&battle)) {
        uint8_t one = chosen(&battle, GEN1_ONE), two = chosen(&battle, GEN1_TWO);
        before = battle;
        if (with_log ? gen1_update(&battle, one, two, log_bytes, sizeof log_bytes, &length)
                     : gen1_update_silent(&battle, one, two))
            fail("a choice that is offered was refused");
        draws += draws_between(&before, &battle);
        keep_pair(one, two);
    }
    game->end = pair_count;
    return draws;
}

/* Plays all battles by the stored choices, with or without log. Returns the bytes of log. */
static uint64_t replay(bool with_log) {
    size_t length = 0;
    uint64_t bytes = 0;
    for (size_t number = 0; number < game_count; number++) {
        gen1_battle battle = games[number].start;
        for (size_t pair = games[number].first; pair < games[number].end; pair++) {
            uint8_t one = pairs[pair][0], two = pairs[pair][1];
            if (with_log ? gen1_update(&battle, one, two, log_bytes, sizeof log_bytes, &length)
                         : gen1_update_silent(&battle, one, two))
                fail("a choice that was accepted is refused");
            bytes += length;
        }
    }
    return bytes;
}

/* Plays all battles by choices drawn during the battle, as a random player does, and stores nothing. */
__attribute__((noinline)) static uint64_t replay_choosing(void) {
    uint64_t updates = 0;
    for (size_t number = 0; number < game_count; number++) {
        gen1_battle battle = games[number].start;
        while (is_going_on(&battle)) {
            uint8_t one = chosen(&battle, GEN1_ONE), two = chosen(&battle, GEN1_TWO);
            if (gen1_update_silent(&battle, one, two) != 0)
                fail("a choice that is offered was refused");
            updates++;
        }
    }
    return updates;
}

/* The library needs a processor that counts set bits in one instruction. */
#ifdef __x86_64__
#define COUNTING __attribute__((target("popcnt")))
#else
#define COUNTING
#endif

/* A choice drawn from a mask of the offered ones: the one at the same place in the list. */
COUNTING static uint8_t chosen_of_mask(const gen1_battle *battle, uint8_t side) {
    uint32_t mask = gen1_offered(battle, side);
    for (uint32_t place = below((uint32_t)__builtin_popcount(mask)); place > 0; place--)
        mask &= mask - 1;
    int bit = __builtin_ctz(mask);
    return (uint8_t)GEN1_CHOICE_AT(bit);
}

/* Plays all battles by choices drawn from masks during the battle, and stores nothing. */
COUNTING __attribute__((noinline)) static uint64_t replay_masked(void) {
    uint64_t updates = 0;
    for (size_t number = 0; number < game_count; number++) {
        gen1_battle battle = games[number].start;
        while (is_going_on(&battle)) {
            uint8_t one = chosen_of_mask(&battle, GEN1_ONE), two = chosen_of_mask(&battle, GEN1_TWO);
            if (gen1_update_silent(&battle, one, two) != 0)
                fail("a choice that is offered was refused");
            updates++;
        }
    }
    return updates;
}

/* The updates of a playout, by the numbers and choices that gen1_playout draws (include/gen1.h). */
static uint64_t updates_of_playout(gen1_battle battle, uint64_t random) {
    uint64_t updates = 0;
    uint8_t numbers[10];
    for (size_t at = 0; at < sizeof numbers; at++) {
        random = random * 6364136223846793005 + 1442695040888963407;
        numbers[at] = (uint8_t)(random >> 32);
    }
    if (gen1_reseed(&battle, numbers, 0) != 0)
        fail("numbers were refused");
    for (; is_going_on(&battle); updates++) {
        uint8_t pair[2];
        for (uint8_t side = GEN1_ONE; side <= GEN1_TWO; side++) {
            uint8_t choices[9], count = gen1_choices(&battle, side, choices);
            random = random * 6364136223846793005 + 1442695040888963407;
            pair[side - 1] = choices[(random >> 32) % count];
        }
        if (gen1_update_silent(&battle, pair[0], pair[1]) != 0)
            fail("a choice that is offered was refused");
    }
    return updates;
}

/* All battles in calls of gen1_playout, one round each. */
static void replay_in_playouts(void) {
    gen1_playouts counts;
    for (size_t number = 0; number < game_count; number++)
        if (gen1_playout(&games[number].start, &(gen1_playout_options){.seed = number, .rounds = 1}, &counts) != 0)
            fail("a battle was refused");
}

static uint64_t updates_of_playouts(void) {
    uint64_t updates = 0;
    for (size_t number = 0; number < game_count; number++)
        updates += updates_of_playout(games[number].start, number);
    return updates;
}

/* The battles of a batch, adjacent in memory, and the pairs that each still has to play. */
static _Alignas(GEN1_ALIGNMENT) gen1_battle batch[BATCH];
static struct { size_t next, end; } to_come[BATCH];

/* Plays all battles by the stored choices, BATCH at a time: an update of each in turn. The memory of all is more than what the
   processor holds next to it. */
static void replay_in_turn(void) {
    size_t begun = 0;
    for (size_t played = 0; played < pair_count;) {
        for (size_t at = 0; at < BATCH; at++) {
            if (to_come[at].next == to_come[at].end) {
                if (begun == game_count)
                    continue;
                batch[at] = games[begun].start;
                to_come[at].next = games[begun].first;
                to_come[at].end = games[begun++].end;
            }
            uint8_t *pair = pairs[to_come[at].next++];
            if (gen1_update_silent(&batch[at], pair[0], pair[1]) != 0)
                fail("a choice that was accepted is refused");
            played++;
        }
    }
}

/* The battles from one number on, before another. */
typedef struct {
    size_t first, end;
} share;

static void *replay_share(void *given) {
    const share *mine = given;
    for (size_t number = mine->first; number < mine->end; number++) {
        _Alignas(GEN1_ALIGNMENT) gen1_battle battle = games[number].start;
        for (size_t pair = games[number].first; pair < games[number].end; pair++)
            if (gen1_update_silent(&battle, pairs[pair][0], pairs[pair][1]) != 0)
                fail("a choice that was accepted is refused");
    }
    return NULL;
}

/* Plays all battles by the stored choices on several threads, each with its own battles. */
static void replay_on_threads(size_t count) {
    pthread_t threads[MOST_THREADS];
    share shares[MOST_THREADS];
    for (size_t number = 0; number < count; number++) {
        shares[number] = (share){number * game_count / count, (number + 1) * game_count / count};
        if (pthread_create(&threads[number], NULL, replay_share, &shares[number]) != 0)
            fail("no thread");
    }
    for (size_t number = 0; number < count; number++)
        pthread_join(threads[number], NULL);
}

#ifdef UNTESTED
/* Plays all battles by the stored choices, which are all offered, without testing that again. */
static void replay_trusted(void) {
    for (size_t number = 0; number < game_count; number++) {
        gen1_battle battle = games[number].start;
        for (size_t pair = games[number].first; pair < games[number].end; pair++)
            UNTESTED(&battle, pairs[pair][0], pairs[pair][1]);
    }
}

/* The playouts by masks, without testing the choices again. */
COUNTING __attribute__((noinline)) static uint64_t replay_masked_trusted(void) {
    uint64_t updates = 0;
    for (size_t number = 0; number < game_count; number++) {
        gen1_battle battle = games[number].start;
        for (; is_going_on(&battle); updates++) {
            uint8_t one = chosen_of_mask(&battle, GEN1_ONE), two = chosen_of_mask(&battle, GEN1_TWO);
            UNTESTED(&battle, one, two);
        }
    }
    return updates;
}
#endif

static double seconds(void) {
    struct timespec now;
    clock_gettime(CLOCK_MONOTONIC, &now);
    return (double)now.tv_sec + 1e-9 * (double)now.tv_nsec;
}

static void print_row(const char *what, double nanoseconds) {
    printf("%-38s %8.1f ns an update, %5.2f million updates a second\n", what, nanoseconds, 1000 / nanoseconds);
}

/* The ways to play all battles. A table has the first three. */
typedef enum {
    QUIET,
    LOG,
    LISTED,
    MASKED,
    PLAYOUTS,
    IN_TURN,
    TWO_THREADS,
    FOUR_THREADS,
    TRUSTED,
    MASKED_TRUSTED,
    WAYS
} way;

static const struct {
    const char *what, *key;
} NAMES[WAYS] = {
    [QUIET] = {"without log", "quiet"},
    [LOG] = {"with log", "log"},
    [LISTED] = {"without log, both sides' choices drawn", "listed"},
    [MASKED] = {"the same, drawn by masks", "masked"},
    [PLAYOUTS] = {"the same, in calls of gen1_playout", "playouts"},
    [IN_TURN] = {"1,024 battles in turn", "in_turn"},
    [TWO_THREADS] = {"on two threads", "two_threads"},
    [FOUR_THREADS] = {"on four threads", "four_threads"},
    [TRUSTED] = {"choices not tested again", "trusted"},
    [MASKED_TRUSTED] = {"drawn by masks, not tested again", "masked_trusted"},
};

static bool is_there(way way) {
#ifdef UNTESTED
    return way < WAYS;
#else
    return way < TRUSTED;
#endif
}

/* Plays all battles in one of these ways, and returns the number of updates. */
static uint64_t played(way way) {
    switch (way) {
    case QUIET:
        replay(false);
        break;
    case LOG:
        replay(true);
        break;
    case LISTED:
        return replay_choosing();
    case MASKED:
        return replay_masked();
    case PLAYOUTS:
        replay_in_playouts();
        break;
    case IN_TURN:
        replay_in_turn();
        break;
    case TWO_THREADS:
        replay_on_threads(2);
        break;
    case FOUR_THREADS:
        replay_on_threads(4);
        break;
#ifdef UNTESTED
    case TRUSTED:
        replay_trusted();
        break;
    case MASKED_TRUSTED:
        return replay_masked_trusted();
#endif
    default:
        break;
    }
    return way == PLAYOUTS ? 0 : pair_count;
}

/* The least time of an update over some rounds; other work of the machine only adds to it. */
static double least_time(way way) {
    double least = 1e9, known = way == PLAYOUTS ? (double)updates_of_playouts() : 0;
    for (int round = 0; round < ROUNDS; round++) {
        double begun = seconds();
        uint64_t updates = played(way);
        double each = 1e9 * (seconds() - begun) / (known > 0 ? known : (double)updates);
        least = each < least ? each : least;
    }
    return least;
}

static void print_table(uint64_t draws) {
    double count = (double)pair_count;
    printf("%zu battles, %zu updates, %.1f a battle\n", game_count, pair_count, count / (double)game_count);
    printf("%.2f draws an update, %.1f bytes of log\n", (double)draws / count, (double)replay(true) / count);
    for (way way = QUIET; way <= LISTED; way++)
        print_row(NAMES[way].what, least_time(way));
}

static void print_more(void) {
    for (way way = MASKED; way < WAYS; way++)
        if (is_there(way))
            print_row(NAMES[way].what, least_time(way));
}

static void print_json(uint64_t draws) {
    double count = (double)pair_count;
    printf("\"battles\":%zu,\"updates\":%zu,\"draws\":%.4f,\"log_bytes\":%.4f,\"ns\":{", game_count, pair_count,
           (double)draws / count, (double)replay(true) / count);
    for (way way = QUIET; way < WAYS; way++)
        if (is_there(way))
            printf("%s\"%s\":%.2f", way == QUIET ? "" : ",", NAMES[way].key, least_time(way));
    printf("}\n");
}

#ifdef UNTESTED
/* The kinds of updates: both sides move, one of them switches, both switch, and no side is asked for a move: fallen members are
   replaced, or the battle begins. */
typedef enum { MOVES, MIXED, SWITCHES, REPLACEMENTS, KINDS } kind;

static const char *const KIND_NAMES[KINDS] = {"moves", "mixed", "switches", "replacements"};

static kind kind_of(const gen1_battle *battle, const uint8_t pair[2]) {
    int result = gen1_result(battle);
    if (GEN1_RESULT_REQUEST_ONE(result) != GEN1_REQUEST_MOVE || GEN1_RESULT_REQUEST_TWO(result) != GEN1_REQUEST_MOVE)
        return REPLACEMENTS;
    return (kind)((pair[0] >= GEN1_CHOICE_SWITCH(1)) + (pair[1] >= GEN1_CHOICE_SWITCH(1)));
}

__attribute__((noinline)) static void counted_update(gen1_battle *battle, uint8_t one, uint8_t two) {
    UNTESTED(battle, one, two);
}

/* Plays all battles, those updates that are of a kind by counted_update, and returns the number of these. */
static uint64_t replay_kind(kind wanted) {
    uint64_t updates = 0;
    for (size_t number = 0; number < game_count; number++) {
        gen1_battle battle = games[number].start;
        for (size_t pair = games[number].first; pair < games[number].end; pair++) {
            if (kind_of(&battle, pairs[pair]) == wanted) {
                counted_update(&battle, pairs[pair][0], pairs[pair][1]);
                updates++;
            } else {
                UNTESTED(&battle, pairs[pair][0], pairs[pair][1]);
            }
        }
    }
    return updates;
}
#endif

static uint64_t mixed_in(uint64_t sum, const uint8_t *bytes, size_t length) {
    for (size_t at = 0; at < length; at++)
        sum = (sum ^ bytes[at]) * 1099511628211;
    return sum;
}

/* Prints a checksum (FNV-1a) of the battle and the log after each update. The other ways to update must give the same battles. */
static void print_sum(void) {
    uint64_t sum = 14695981039346656037u;
    size_t length;
    for (size_t number = 0; number < game_count; number++) {
        gen1_battle battle = games[number].start, silent = battle, untested = battle;
        for (size_t pair = games[number].first; pair < games[number].end; pair++) {
            uint8_t one = pairs[pair][0], two = pairs[pair][1];
            if (gen1_update(&battle, one, two, log_bytes, sizeof log_bytes, &length) ||
                gen1_update_silent(&silent, one, two))
                fail("a choice that was accepted is refused");
            sum = mixed_in(mixed_in(sum, battle.bytes, sizeof battle.bytes), log_bytes, length);
#ifdef UNTESTED
            UNTESTED(&untested, one, two);
#else
            untested = battle;
#endif
            if (memcmp(&silent, &battle, sizeof battle) != 0 || memcmp(&untested, &battle, sizeof battle) != 0)
                fail("two ways to update differ");
        }
    }
    printf("%zu updates, %016llx\n", pair_count, (unsigned long long)sum);
}

/* The work that callgrind counts, after the first play of the battles; prints the number of updates. */
static void print_counted(const char *mode) {
    uint64_t updates = pair_count;
    if (strcmp(mode, "listed") == 0)
        updates = replay_choosing();
    else if (strcmp(mode, "masked") == 0)
        updates = replay_masked();
    else if (strcmp(mode, "playout") == 0) {
        updates = updates_of_playouts();
        replay_in_playouts();
    } else if (strcmp(mode, "trusted") == 0)
        updates = played(TRUSTED);
    else if (strcmp(mode, "masked_trusted") == 0)
        updates = played(MASKED_TRUSTED);
#ifdef UNTESTED
    for (kind kind = MOVES; kind < KINDS; kind++)
        if (strcmp(mode, KIND_NAMES[kind]) == 0)
            updates = replay_kind(kind);
#endif
    printf("%llu\n", (unsigned long long)updates);
}

int main(int count, char **words) {
    uint64_t draws = 0;
    const char *mode = count > 3 ? words[3] : "table";
    game_count = count > 1 ? strtoull(words[1], NULL, 10) : 10000;
    move_percent = count > 4 ? (uint32_t)strtoul(words[4], NULL, 10) : 0;
    state = 0x9E3779B97F4A7C15 ^ (count > 2 ? strtoull(words[2], NULL, 10) : 1);
    games = grown(NULL, (game_count + 1) * sizeof *games);
    for (size_t number = 0; number < game_count; number++)
        draws += play(&games[number], strcmp(mode, "log") == 0);
    if (strcmp(mode, "table") == 0)
        print_table(draws);
    else if (strcmp(mode, "more") == 0)
        print_more();
    else if (strcmp(mode, "json") == 0)
        print_json(draws);
    else if (strcmp(mode, "sum") == 0)
        print_sum();
    else
        print_counted(mode);
}
