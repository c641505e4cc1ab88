/* A battle as decimal numbers, and a team as text (battle_file.h). */
#include "battle_file.h"

#include <stdlib.h>
#include <string.h>

/* The next number, from 0 up to `most`; if there is none, `*is_read` becomes false. */
static uint16_t next(FILE *from, int most, bool *is_read) {
    char word[12];
    /* A word that fills the buffer may be longer than it; no number here is that long. */
    *is_read = *is_read && fscanf(from, "%11s", word) == 1 && strspn(word, "0123456789") == strlen(word) &&
               strlen(word) < sizeof word - 1 && strtol(word, NULL, 10) <= most;
    return *is_read ? (uint16_t)strtol(word, NULL, 10) : 0;
}

static uint8_t next_byte(FILE *from, bool *is_read) { return (uint8_t)next(from, 255, is_read); }

static void read_member(FILE *from, gen1_member *member, bool *is_read) {
    member->species = next_byte(from, is_read);
    member->level = next_byte(from, is_read);
    for (int at = 0; at < 4; at++)
        member->dvs[at] = next_byte(from, is_read);
    for (int at = 0; at < 5; at++)
        member->exp[at] = next(from, 65535, is_read);
    for (int at = 0; at < 4; at++) {
        member->moves[at] = next_byte(from, is_read);
        member->pp_ups[at] = next_byte(from, is_read);
    }
}

static void read_team(FILE *from, gen1_team *team, bool *is_read) {
    memset(team, 0, sizeof *team);
    team->count = (uint8_t)next(from, 6, is_read);
    for (int at = 0; at < team->count; at++)
        read_member(from, &team->members[at], is_read);
}

bool read_battle(FILE *from, battle_file *to) {
    bool is_read = true;
    to->rules = next_byte(from, &is_read);
    to->limit = next(from, 65535, &is_read);
    for (int at = 0; at < 10; at++)
        to->seed[at] = next_byte(from, &is_read);
    read_team(from, &to->one, &is_read);
    read_team(from, &to->two, &is_read);
    return is_read;
}

bool read_team_text(const char *path, gen1_team *team) {
    char text[4096];
    FILE *from = fopen(path, "r");
    size_t count = from == NULL ? 0 : fread(text, 1, sizeof text, from);
    bool is_read = from != NULL && !ferror(from) && count < sizeof text;
    gen1_text_fault fault = {0};
    if (from != NULL)
        fclose(from);
    if (!is_read)
        fprintf(stderr, "error: %s cannot be read, or is too long for a team\n", path);
    else if (gen1_team_from_text(text, count, team, &fault) != 0)
        fprintf(stderr, "error: %s: line %zu member %zu code %d rule %d\n", path, fault.line, fault.member, fault.code,
                fault.rule);
    return is_read && fault.code == 0;
}

void print_team_fault(uint32_t fault) {
    fprintf(stderr, "error: team %u place %u refusal %u\n", (unsigned)GEN1_SIDE_OF(fault),
            (unsigned)GEN1_PLACE_OF(fault), (unsigned)GEN1_CODE_OF(fault));
}
