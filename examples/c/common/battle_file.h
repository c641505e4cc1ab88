/*
 * battle_file.h - input of the examples: a battle as decimal numbers, as in examples/tauros.txt (examples/c/play.c has the format), and
 * a team as Pokemon Showdown's team builder exports it (docs/TEAM_TEXT.md).
 */
#ifndef BATTLE_FILE_H
#define BATTLE_FILE_H

#include "gen1.h"

#include <stdio.h>

/* The arguments of gen1_new. */
typedef struct battle_file {
    uint8_t rules;
    uint16_t limit;
    uint8_t seed[10];
    gen1_team one, two;
} battle_file;

/* Reads up to the end of side 2's team, but not the choices after it. Returns whether every number was present and in range. */
bool read_battle(FILE *from, battle_file *to);

/* Reads a team from a text file. If that fails, prints the reason, with line and code as in gen1.h, and returns false. */
bool read_team_text(const char *path, gen1_team *team);

/* Prints why gen1_new refused the teams, as `battle_tool` does. */
void print_team_fault(uint32_t fault);

#endif
