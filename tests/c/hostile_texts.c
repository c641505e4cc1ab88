/* Random teams, and calls that read teams from text and write them, with texts that are not a team and teams that have no text (hostile.c). */
#include "lawful.h"

#include <string.h>

static const char team_text[] = "Tauros\nLevel: 99\nEVs: 252 HP / 4 Atk\nIVs: 0 Atk\n- Body Slam\n- Hyper Beam\n"
                                "\nGengar\n- Hypnosis\n- Lick\n";
static const char team_packed[] = "Tauros||||BodySlam,HyperBeam||252,4,,,,||,0,,,,||99|]Gengar||||Hypnosis,Lick|||||||";

typedef uint8_t reading(const char *text, size_t count, gen1_team *team, gen1_text_fault *fault);

static void try_team(const char *call, reading *read, const char *lawful, size_t length) {
    char text[256];
    size_t count = one_in(4) ? draw(sizeof text) : length;
    for (size_t at = 0; at < sizeof text; at++)
        text[at] = (char)any_byte();
    bool is_begun = !one_in(8);
    if (is_begun)
        memcpy(text, lawful, length);
    uint32_t changes = draw(4);
    bool is_lawful = is_begun && count == length && changes == 0;
    for (; changes > 0; changes--)
        text[draw((uint32_t)length)] = (char)(one_in(2) ? "\n|],-: 0/"[draw(9)] : any_byte());
    const char *given = block_of(0, text, count);
    gen1_team *team = block(1, sizeof *team);
    gen1_text_fault *fault = block(2, sizeof *fault);
    note();
    uint8_t got = read(count == 0 ? NULL : given, count, team, fault), want = is_lawful ? 0 : got;
    bool is_kept = got == 0 ? changed_only(1, sizeof *team) && fault_of_new(team, team, 0, 1) == 0
                            : changed_only(2, sizeof *fault) && fault->code == got && GEN1_ERROR_TEXT_SPECIES <= got &&
                                  got <= GEN1_ERROR_TEXT_TEAM && (fault->rule != 0) == (got == GEN1_ERROR_TEXT_TEAM);
    tell(call, got == want && is_kept, got, want);
}

static void try_team_from_text(void) {
    try_team("gen1_team_from_text", gen1_team_from_text, team_text, sizeof team_text - 1);
}

static void try_team_from_packed(void) {
    try_team("gen1_team_from_packed", gen1_team_from_packed, team_packed, sizeof team_packed - 1);
}

typedef uint32_t writing(const gen1_team *team, char *text, size_t room, size_t *length);

/* The result that a team must have where there is room: its error, or the first member with other than three PP ups. */
static uint32_t fault_of_writing(const gen1_team *team) {
    uint32_t fault = fault_of_new(team, team, 0, GEN1_LIMIT) & 0xffff;
    for (uint32_t place = 1; fault == 0 && place <= team->count; place++)
        for (int slot = 0; slot < 4; slot++)
            if (team->members[place - 1].moves[slot] != 0 && team->members[place - 1].pp_ups[slot] != 3)
                fault = 256 * place + GEN1_ERROR_UNWRITABLE;
    return fault;
}

/* The text of a team is read as one that has the same text. */
static void try_writing(const char *call, writing *write, reading *read, size_t most) {
    gen1_team given = lawful_team();
    for (int at = 0; at < 24 && !one_in(32); at++)
        given.members[at / 4].pp_ups[at % 4] = 3;
    for (uint32_t times = one_in(2) ? 0 : draw(3); times > 0; times--)
        spoil(&given);
    char whole[GEN1_TEAM_TEXT_ROOM], again[GEN1_TEAM_TEXT_ROOM];
    size_t count = 0, same = 0, room = one_in(2) ? most : draw((uint32_t)most);
    uint32_t want = fault_of_writing(&given), all = write(&given, whole, most, &count);
    const gen1_team *team = block_of(0, &given, sizeof given);
    char *text = block(1, room);
    size_t *length = block(2, sizeof *length);
    note();
    uint32_t got = write(team, text, room, length), due = want != 0 ? want : count < room ? 0 : GEN1_ERROR_SMALL_TEXT;
    bool is_right = all == want && got == due;
    if (got != 0)
        is_right &= unchanged();
    else {
        gen1_team back;
        gen1_text_fault fault;
        is_right &= changed_only_two(1, count + 1, 2, sizeof *length) && *length == count && text[count] == '\0' &&
                    read(text, count, &back, &fault) == 0 && write(&back, again, most, &same) == 0 && same == count &&
                    memcmp(text, again, count) == 0;
    }
    tell(call, is_right, (long)got, (long)due);
}

static void try_team_to_text(void) {
    try_writing("gen1_team_to_text", gen1_team_to_text, gen1_team_from_text, GEN1_TEAM_TEXT_ROOM);
}

static void try_team_to_packed(void) {
    try_writing("gen1_team_to_packed", gen1_team_to_packed, gen1_team_from_packed, GEN1_TEAM_PACKED_ROOM);
}

/* A team that gen1_new accepts, of different species; the same arguments give the same team. */
static void try_random_team(void) {
    uint64_t seed = (uint64_t)draw(1u << 31) << 33 ^ draw(1u << 31);
    uint8_t count = one_in(4) ? any_byte() : (uint8_t)draw(8), from_all = one_in(2) ? 0 : any_byte();
    gen1_team *team = block(1, sizeof *team), again;
    note();
    uint8_t got = gen1_random_team(seed, count, from_all, team);
    uint8_t want = count == 0 ? GEN1_ERROR_TEAM_EMPTY : count > 6 ? GEN1_ERROR_TEAM_TOO_LONG : 0;
    bool is_right = got == 0 ? changed_only(1, sizeof *team) : unchanged();
    if (got == 0 && is_right) {
        is_right = team->count == count && fault_of_new(team, team, 0, 1) == 0;
        for (int at = 0; at < count; at++)
            for (int before = 0; before < at; before++)
                is_right &= team->members[at].species != team->members[before].species;
        gen1_random_team(seed, count, from_all, &again);
        is_right &= memcmp(team, &again, sizeof again) == 0;
    }
    tell("gen1_random_team", got == want && is_right, got, want);
}

static void try_sample_team(void) {
    uint8_t number = one_in(2) ? (uint8_t)draw(14) : any_byte();
    gen1_team *team = block(1, sizeof *team);
    note();
    uint8_t got = gen1_sample_team(number, team);
    uint8_t want = number >= 1 && number <= GEN1_SAMPLE_TEAMS ? 0 : GEN1_ERROR_UNKNOWN;
    bool is_right = got == 0 ? changed_only(1, sizeof *team) && fault_of_new(team, team, 0, 1) == 0 : unchanged();
    tell("gen1_sample_team", got == want && is_right, got, want);
}

try_call *const tries_of_texts[] = {try_team_from_text,
                                    try_team_from_packed,
                                    try_team_to_text,
                                    try_team_to_packed,
                                    try_random_team,
                                    try_sample_team,
                                    NULL};
