/* Battles and logs of lawful play (lawful.h). */
#include "lawful.h"

#include <stdlib.h>
#include <string.h>

gen1_battle met[MET];
uint8_t met_log[MET][GEN1_LOG_ROOM];
size_t met_length[MET];

static gen1_member lawful_member(void) {
    gen1_member it;
    memset(&it, 0, sizeof it);
    it.species = (uint8_t)(1 + draw(151));
    it.level = (uint8_t)(1 + draw(100));
    for (int at = 0; at < 4; at++) {
        it.dvs[at] = (uint8_t)draw(16);
        it.moves[at] = (uint8_t)(1 + at * 25 + (int)draw(25)); /* none twice, and none that is left out */
        it.pp_ups[at] = (uint8_t)draw(4);
    }
    for (int at = 0; at < 5; at++)
        it.exp[at] = (uint16_t)draw(65536);
    return it;
}

gen1_team lawful_team(void) {
    gen1_team team;
    memset(&team, 0, sizeof team);
    team.count = (uint8_t)(1 + draw(6));
    for (int at = 0; at < 6; at++)
        team.members[at] = lawful_member();
    return team;
}

uint8_t offered(const gen1_battle *battle, uint8_t side) {
    uint8_t choices[9];
    uint8_t count = gen1_choices(battle, side, choices);
    return count == 0 ? GEN1_CHOICE_PASS : choices[draw(count)];
}

void meet(int place) {
    gen1_team one = lawful_team(), two = lawful_team();
    uint8_t seed[10];
    size_t length = 0;
    for (int at = 0; at < 10; at++)
        seed[at] = (uint8_t)draw(256);
    if (gen1_new(&met[place], &one, &two, seed, (uint8_t)draw(4), GEN1_LIMIT) != 0)
        abort();
    met_length[place] = 0;
    for (uint32_t updates = one_in(8) ? 0 : 1 + draw(one_in(8) ? 2000 : 40); updates > 0; updates--) {
        uint8_t first = offered(&met[place], GEN1_ONE), second = offered(&met[place], GEN1_TWO);
        if (gen1_update(&met[place], first, second, met_log[place], GEN1_LOG_ROOM, &length) != 0)
            return;
        met_length[place] = length;
    }
}

gen1_battle some_battle(bool *is_valid) {
    gen1_battle battle = met[draw(MET)];
    *is_valid = !one_in(4);
    for (uint32_t changes = *is_valid ? 0 : 1 + draw(one_in(2) ? 4 : 400); changes > 0; changes--)
        battle.bytes[draw(384)] = any_byte();
    return battle;
}

bool is_offered(const gen1_battle *battle, uint8_t side, uint8_t choice) {
    uint8_t choices[9];
    uint8_t count = gen1_choices(battle, side, choices);
    return count <= 9 && memchr(choices, choice, count) != NULL;
}

bool are_zeros(const uint8_t *bytes, size_t count) {
    for (size_t at = 0; at < count; at++)
        if (bytes[at] != 0)
            return false;
    return true;
}

bool is_update_code(uint8_t code) {
    return code == 0 || code == GEN1_ERROR_OVER || code == GEN1_ERROR_NOT_OFFERED_ONE ||
           code == GEN1_ERROR_NOT_OFFERED_TWO;
}
