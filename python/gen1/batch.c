/*
 * Loops over calls of gen1.h for the arrays of the Python package, which would be slow in Python. tools/python_wheel compiles this file
 * into the package's libgen1.so. It holds no rule of battle: it passes on what the library told, and copies fields of gen1_player.
 */

#include <stdint.h>
#include <string.h>

#include "gen1.h"

#define LOG_ROOM 512

/* Tells both players of a battle what an update has brought: each is fed its own form of the log, and shown its own side. */
static void tell_both(const gen1_battle *battle, gen1_player players[2], gen1_teller tellers[2], const uint8_t *log,
                      size_t length) {
    for (int at = 0; at < 2; at++) {
        uint8_t told[LOG_ROOM];
        size_t count = 0;
        gen1_own_side own;
        gen1_tell(&tellers[at], log, length, told, sizeof told, &count);
        gen1_player_feed(&players[at], told, count);
        gen1_get_own_side(battle, (uint8_t)(at + 1), &own);
        gen1_player_show(&players[at], &own, gen1_offered(battle, (uint8_t)(at + 1)));
    }
}

/* As gen1_update_many, and tells both players of each battle that was updated. */
void gen1_py_play(gen1_battle *battles, gen1_player (*players)[2], gen1_teller (*tellers)[2],
                  gen1_batch_update *updates, size_t count);
void gen1_py_play(gen1_battle *battles, gen1_player (*players)[2], gen1_teller (*tellers)[2],
                  gen1_batch_update *updates, size_t count) {
    for (size_t at = 0; at < count; at++) {
        uint8_t log[LOG_ROOM];
        size_t length = 0;
        updates[at].code = gen1_update(&battles[at], updates[at].one, updates[at].two, log, sizeof log, &length);
        updates[at].result = gen1_result(&battles[at]);
        if (updates[at].code == 0)
            tell_both(&battles[at], players[at], tellers[at], log, length);
    }
}

/* A column of an observation: where its value is in a gen1_player, where it goes to in a row, and what it is computed by. */
typedef struct column {
    uint16_t from;
    uint16_t to;
    uint16_t by;
} column;

/* The columns of an observation by their kinds, which follow each other in `columns` in this order. */
typedef struct form {
    const column *columns;
    const void
        *tables; /* of bytes: the value for each of 256 bytes, float or uint8_t; `by` is the number of the table */
    const float *scales; /* of words: the factor; `by` is its number */
    uint32_t bytes;
    uint32_t words;
    uint32_t ratios; /* a word as a share of the word at `by` */
    uint32_t hot;    /* a byte below `by`, 1 in the column `to` plus the byte */
    uint32_t width;  /* of a row */
} form;

static uint32_t word(const uint8_t *from) {
    uint16_t found;
    memcpy(&found, from, sizeof found);
    return found;
}

static float float_of(float number) { return number; }

static uint8_t byte_of(float number) { return number < 255 ? (uint8_t)number : 255; }

static float float_share(uint32_t part, uint32_t whole) { return whole ? (float)part / (float)whole : 0; }

/* Rounded up, so that it is 0 only for 0. Floats are exact here, since `part` and `whole` are below 1000, and quicker than numbers. */
static uint8_t byte_share(uint32_t part, uint32_t whole) {
    return whole ? (uint8_t)((float)(255 * part + whole - 1) / (float)whole) : 0;
}

/* How many rows are written together: each column in all of them, so that it is looked up once, while they stay in the cache. */
#define BLOCK 16

/* Computes a column of each row of a block: `player` and `row` go from one row to the next. */
#define EACH_ROW(value)                                                                                                \
    do {                                                                                                               \
        const uint8_t *player = first + it->from;                                                                      \
        for (size_t row = 0, to = it->to; row < height; row++, to += width, player += 2 * sizeof(gen1_player))         \
            rows[to] = (value);                                                                                        \
    } while (0)

/* Writes the row of the player of side `side` + 1 in each of `count` pairs. */
#define OBSERVE(name, number, of, share)                                                                               \
    static void name##_block(const uint8_t *first, size_t height, const form *by, number *restrict rows) {             \
        const size_t width = by->width;                                                                                \
        const column *it = by->columns, *end = it + by->bytes;                                                         \
        for (; it < end; it++) {                                                                                       \
            const number *table = (const number *)by->tables + 256 * it->by;                                           \
            EACH_ROW(table[*player]);                                                                                  \
        }                                                                                                              \
        for (end += by->words; it < end; it++) {                                                                       \
            const float scale = by->scales[it->by];                                                                    \
            EACH_ROW(of((float)word(player) * scale));                                                                 \
        }                                                                                                              \
        for (end += by->ratios; it < end; it++)                                                                        \
            EACH_ROW(share(word(player), word(player - it->from + it->by)));                                           \
        for (end += by->hot; it < end; it++)                                                                           \
            for (size_t row = 0; row < height; row++) {                                                                \
                const uint8_t option = first[row * 2 * sizeof(gen1_player) + it->from];                                \
                if (option < it->by)                                                                                   \
                    rows[row * width + it->to + option] = 1;                                                           \
            }                                                                                                          \
    }                                                                                                                  \
    void name(const gen1_player(*players)[2], size_t side, size_t count, const form *by, number *rows);                \
    void name(const gen1_player(*players)[2], size_t side, size_t count, const form *by, number *rows) {               \
        for (size_t at = 0; at < count; at += BLOCK) {                                                                 \
            size_t height = count - at < BLOCK ? count - at : BLOCK;                                                   \
            if (by->hot)                                                                                               \
                memset(rows + at * by->width, 0, height * by->width * sizeof *rows);                                   \
            name##_block((const uint8_t *)&players[at][side], height, by, rows + at * by->width);                      \
        }                                                                                                              \
    }

OBSERVE(gen1_py_observe_floats, float, float_of, float_share)
OBSERVE(gen1_py_observe_bytes, uint8_t, byte_of, byte_share)
