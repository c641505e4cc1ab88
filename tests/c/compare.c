/*
 * Plays fuzzed battles with two builds of the C library, and compares everything that they return and write.
 *
 *     cc -O2 -I include tests/c/compare.c -ldl -o compare
 *     ./compare FIRST.so SECOND.so BATTLES STRINGS SEED
 *
 * For each battle it compares the return value of gen1_new and, after each update, the return value, log, 384 bytes, result, choices,
 * events, lines and a damage. A string is a battle's bytes with some of them changed, or random bytes. For each string it compares
 * loading it, the same calls on the bytes whether or not they load, and reading the bytes as a log. It prints the first
 * differences, and then one line of counts. Status: 0 no difference, 1 a difference, 2 a library could not be used.
 */
#include <dlfcn.h>
#include <stdio.h>
#include <stdlib.h>
#include <string.h>

#include "gen1.h"

typedef struct library {
    __typeof__(gen1_new) *new;
    __typeof__(gen1_load) *load;
    __typeof__(gen1_choices) *choices;
    __typeof__(gen1_update) *update;
    __typeof__(gen1_update_silent) *update_silent;
    __typeof__(gen1_result) *result;
    __typeof__(gen1_next_event) *next_event;
    __typeof__(gen1_next_line) *next_line;
    __typeof__(gen1_damage) *damage;
} library;

static library both[2];
static uint64_t state;
static long differences, updates;

/* Battles that were played, for strings to begin from. */
static gen1_battle met[256];
static uint8_t met_log[256][512];

static void *call_of(void *from, const char *name) {
    void *found = dlsym(from, name);
    if (!found) {
        fprintf(stderr, "compare: %s\n", dlerror());
        exit(2);
    }
    return found;
}

static library opened(const char *path) {
    void *from = dlopen(path, RTLD_NOW | RTLD_LOCAL);
    if (!from) {
        fprintf(stderr, "compare: %s\n", dlerror());
        exit(2);
    }
    library it = {call_of(from, "gen1_new"),        call_of(from, "gen1_load"),          call_of(from, "gen1_choices"),
                  call_of(from, "gen1_update"),     call_of(from, "gen1_update_silent"), call_of(from, "gen1_result"),
                  call_of(from, "gen1_next_event"), call_of(from, "gen1_next_line"),     call_of(from, "gen1_damage")};
    return it;
}

static uint32_t draw(uint32_t bound) {
    state ^= state << 13;
    state ^= state >> 7;
    state ^= state << 17;
    return (uint32_t)(state >> 32) % bound;
}

static void same(const char *what, const void *one, const void *two, size_t size) {
    if (memcmp(one, two, size) && ++differences <= 10)
        printf("difference in %s, at draw state %llx\n", what, (unsigned long long)state);
}

/* A team, mostly a lawful one. */
static gen1_team a_team(void) {
    static const uint8_t left_out[] = {102, 118, 119, 144, 165};
    gen1_team team;
    memset(&team, 0, sizeof team);
    team.count = (uint8_t)(draw(200) ? 1 + draw(6) : draw(9));
    for (int place = 0; place < 6; place++) {
        gen1_member *it = &team.members[place];
        it->species = (uint8_t)(draw(2000) ? 1 + draw(151) : draw(256));
        it->level = (uint8_t)(draw(2) ? 100 : draw(1000) ? 1 + draw(100) : draw(256));
        for (int k = 0; k < 4; k++) {
            it->dvs[k] = (uint8_t)(draw(2) ? 15 : draw(1000) ? draw(16) : draw(256));
            it->moves[k] = (uint8_t)(draw(16) ? 1 + draw(165) : 0);
            for (int n = 0; n < 5; n++)
                it->moves[k] = (uint8_t)(it->moves[k] == left_out[n] && draw(100) ? 33 : it->moves[k]);
            for (int n = 0; n < k; n++)
                it->moves[k] = (uint8_t)(it->moves[k] == it->moves[n] && draw(100) ? 0 : it->moves[k]);
            it->pp_ups[k] = (uint8_t)(draw(1000) ? draw(4) : draw(256));
        }
        if (draw(100) && !it->moves[0] && !it->moves[1] && !it->moves[2] && !it->moves[3])
            it->moves[0] = 33;
        for (int k = 0; k < 5; k++)
            it->exp[k] = (uint16_t)(draw(2) ? 65535 : draw(65536));
    }
    return team;
}

static void compare_log(const uint8_t *log, size_t size) {
    size_t at[2] = {0, 0};
    for (int n = 0; n < 200; n++) {
        gen1_event events[2];
        char lines[2][GEN1_LINE_ROOM];
        size_t lengths[2] = {0, 0}, behind[2] = {at[0], at[1]};
        uint8_t codes[2], text_codes[2];
        memset(events, 0, sizeof events);
        memset(lines, 0, sizeof lines);
        for (int k = 0; k < 2; k++) {
            text_codes[k] = both[k].next_line(log, size, &behind[k], lines[k], sizeof lines[k], &lengths[k]);
            codes[k] = both[k].next_event(log, size, &at[k], &events[k]);
        }
        same("an event's code", &codes[0], &codes[1], 1);
        same("an event", &events[0], &events[1], sizeof events[0]);
        same("a place in a log", &at[0], &at[1], sizeof at[0]);
        same("a line's code", &text_codes[0], &text_codes[1], 1);
        same("a line's length", &lengths[0], &lengths[1], sizeof lengths[0]);
        same("a line", lines[0], lines[1], sizeof lines[0]);
        if (codes[0])
            return;
    }
}

/* Compares what both libraries return for one battle; the choices of each side are left in place. */
static uint8_t looked(gen1_battle battles[2], uint8_t choices[2][9], uint8_t counts[2]) {
    uint8_t results[2], side = (uint8_t)(draw(50) ? 1 + draw(2) : draw(256)), move = (uint8_t)draw(170);
    uint8_t codes[2], answers[2][9];
    uint16_t damages[2][39];
    bool critical = draw(2);
    memset(damages, 0, sizeof damages);
    memset(answers, 0, sizeof answers);
    memset(choices, 0, 18);
    for (int which = 1; which <= 2; which++) {
        counts[which - 1] = both[0].choices(&battles[0], (uint8_t)which, choices[which - 1]);
        codes[1] = both[1].choices(&battles[1], (uint8_t)which, answers[0]);
        same("the number of choices", &counts[which - 1], &codes[1], 1);
        same("choices", choices[which - 1], answers[0], counts[which - 1]);
    }
    for (int k = 0; k < 2; k++) {
        results[k] = both[k].result(&battles[k]);
        codes[k] = both[k].damage(&battles[k], side, move, critical, damages[k]);
    }
    same("a result", &results[0], &results[1], 1);
    same("a damage's code", &codes[0], &codes[1], 1);
    same("damages", damages[0], damages[1], sizeof damages[0]);
    return results[0];
}

/* Updates with both libraries; returns whether the update was accepted. */
static bool updated(gen1_battle battles[2], uint8_t one, uint8_t two) {
    uint8_t logs[2][GEN1_LOG_ROOM], answers[2];
    size_t lengths[2] = {0, 0}, room = draw(64) ? GEN1_LOG_ROOM : 100;
    bool is_silent = !draw(64);
    memset(logs, 0, sizeof logs);
    for (int k = 0; k < 2; k++)
        answers[k] = is_silent ? both[k].update_silent(&battles[k], one, two)
                               : both[k].update(&battles[k], one, two, logs[k], room, &lengths[k]);
    updates++;
    same("an update's answer", &answers[0], &answers[1], 1);
    same("a battle's bytes", &battles[0], &battles[1], sizeof battles[0]);
    same("a log's length", &lengths[0], &lengths[1], sizeof lengths[0]);
    same("a log", logs[0], logs[1], sizeof logs[0]);
    if (!answers[0]) {
        uint32_t place = draw(256);
        met[place] = battles[0];
        memcpy(met_log[place], logs[0], sizeof logs[0]);
        if (!draw(8))
            compare_log(logs[0], lengths[0]);
    }
    return !answers[0];
}

static uint8_t chosen(const uint8_t choices[9], uint8_t count) {
    return count && draw(50) ? choices[draw(count)] : (uint8_t)draw(48);
}

static bool battle_played(void) {
    gen1_team teams[2] = {a_team(), a_team()};
    gen1_battle battles[2];
    uint8_t seed[10], choices[2][9], counts[2], rules = (uint8_t)(draw(200) ? draw(4) : draw(256));
    uint16_t limit = (uint16_t)(draw(2) ? 1000 : draw(20) ? 1 + draw(300) : draw(65536));
    uint32_t answers[2];
    memset(battles, 0, sizeof battles);
    for (int k = 0; k < 10; k++)
        seed[k] = (uint8_t)draw(256);
    for (int k = 0; k < 2; k++)
        answers[k] = both[k].new(&battles[k], &teams[0], &teams[1], seed, rules, limit);
    same("what gen1_new answers", &answers[0], &answers[1], sizeof answers[0]);
    same("a new battle's bytes", &battles[0], &battles[1], sizeof battles[0]);
    if (answers[0])
        return false;
    while (!GEN1_RESULT_OUTCOME(looked(battles, choices, counts)))
        updated(battles, chosen(choices[0], counts[0]), chosen(choices[1], counts[1]));
    updated(battles, GEN1_CHOICE_PASS, GEN1_CHOICE_PASS);
    return true;
}

/* A string: a played battle with some bytes changed, or random bytes. */
static size_t a_string(uint8_t bytes[400]) {
    size_t size = draw(100) ? 384 : draw(401);
    if (draw(20))
        memcpy(bytes, met[draw(256)].bytes, 384);
    else
        for (int k = 0; k < 400; k++)
            bytes[k] = (uint8_t)draw(256);
    for (uint32_t n = draw(5); n > 0; n--)
        bytes[draw(2) ? draw(384) : draw(24)] = (uint8_t)(draw(2) ? draw(8) : draw(256));
    return size;
}

static void string_compared(void) {
    uint8_t bytes[400] = {0}, choices[2][9], counts[2], codes[2];
    gen1_battle battles[2];
    size_t size = a_string(bytes);
    memset(battles, 0, sizeof battles);
    for (int k = 0; k < 2; k++)
        codes[k] = both[k].load(&battles[k], bytes, size);
    same("what gen1_load answers", &codes[0], &codes[1], 1);
    same("a loaded battle", &battles[0], &battles[1], sizeof battles[0]);
    for (int k = 0; codes[0] && k < 2; k++)
        memcpy(battles[k].bytes, bytes, 384);
    for (int n = 0; n < 3 && !GEN1_RESULT_OUTCOME(looked(battles, choices, counts)); n++)
        updated(battles, chosen(choices[0], counts[0]), chosen(choices[1], counts[1]));
    uint8_t log[512];
    memcpy(log, met_log[draw(256)], sizeof log);
    for (uint32_t n = draw(4); n > 0; n--)
        log[draw(64)] = (uint8_t)(draw(2) ? draw(30) : draw(256));
    compare_log(log, draw(513));
}

int main(int count, char **words) {
    if (count != 6) {
        fprintf(stderr, "usage: compare FIRST.so SECOND.so BATTLES STRINGS SEED\n");
        return 2;
    }
    both[0] = opened(words[1]);
    both[1] = opened(words[2]);
    state = strtoull(words[5], NULL, 10) * 0x9e3779b97f4a7c15ull | 1;
    long battles = strtol(words[3], NULL, 10), strings = strtol(words[4], NULL, 10), refused = 0;
    for (long n = 0; n < battles;)
        if (battle_played())
            n++;
        else
            refused++;
    for (long n = 0; n < strings; n++)
        string_compared();
    printf("%ld battles, %ld teams refused, %ld strings, %ld updates, %ld differences\n", battles, refused, strings,
           updates, differences);
    return differences > 0;
}
