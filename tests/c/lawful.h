/* lawful.h - battles and logs of lawful play, for calls to begin with. */
#ifndef LAWFUL_H
#define LAWFUL_H

#include "gen1.h"
#include "guarded.h"

enum { MET = 64 };

/* Battles of lawful play, and the log of the last update of each. */
extern gen1_battle met[MET];
extern uint8_t met_log[MET][GEN1_LOG_ROOM];
extern size_t met_length[MET];

/* A team that no rule refuses. */
gen1_team lawful_team(void);

/* Any of the choices that a side is offered. */
uint8_t offered(const gen1_battle *battle, uint8_t side);
bool is_offered(const gen1_battle *battle, uint8_t side, uint8_t choice);

/* Plays some updates of a new battle, and stores its state. */
void meet(int place);

/* A battle of lawful play, or any bytes: then `*is_valid` is false. */
gen1_battle some_battle(bool *is_valid);

/* Whether all of these bytes are 0. */
bool are_zeros(const uint8_t *bytes, size_t count);

/* Whether a code is one that an update without a log may return, for any bytes of the battle. */
bool is_update_code(uint8_t code);

/* Puts a number that may be out of its range into a team; and what gen1_new must return, by the header. */
void spoil(gen1_team *team);
uint32_t fault_of_new(const gen1_team *one, const gen1_team *two, uint8_t rules, uint16_t limit);

/* A log of lawful play, some of its bytes changed, or any bytes; in the block 0. An offset in a log, or past its end, or far past it. */
const uint8_t *some_log(size_t *count);
size_t some_place(size_t count);

/* Functions that each call one function of the library, and count the call. */
typedef void try_call(void);

#endif
