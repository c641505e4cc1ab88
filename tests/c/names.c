/*
 * Compares what only the header names with docs/MECHANICS.md and the library: sizes, the bits of choices, and the details of events in
 * the lines that they print.
 *
 *     cc -std=c11 -I include tests/c/names.c crates/gen1_c/out/libgen1_c.a -o names
 *
 * Status 0 where all is right; else it prints what is wrong.
 */
#include "gen1.h"

#include <stdio.h>
#include <string.h>

_Static_assert(sizeof(gen1_battle) == 384 && _Alignof(gen1_battle) == 1, "a battle is its bytes");
_Static_assert(sizeof(gen1_room) == GEN1_ROOM_SIZE && _Alignof(gen1_room) == 4, "the size of a room");
_Static_assert(sizeof(gen1_spectator) == GEN1_SPECTATOR_SIZE && _Alignof(gen1_spectator) == 2,
               "the size of a spectator");
_Static_assert(sizeof(gen1_narrator) == GEN1_NARRATOR_SIZE && _Alignof(gen1_narrator) == 2, "the size of a narrator");
_Static_assert(sizeof(gen1_host) == GEN1_HOST_SIZE && _Alignof(gen1_host) == 4, "the size of a host");
_Static_assert(sizeof(gen1_row) == GEN1_ROW_SIZE && _Alignof(gen1_row) == 4, "the size of a row");
_Static_assert(sizeof(gen1_message) == GEN1_MESSAGE_SIZE && _Alignof(gen1_message) == 4, "the size of a message");
_Static_assert(sizeof(gen1_notice) == GEN1_NOTICE_SIZE && _Alignof(gen1_notice) == 4, "the size of a notice");

/* "Offered choices": Pass, Move 0 to 4, Switch 1 to 6, by their bytes. */
static const int choices[12] = {0x00, 0x10, 0x11, 0x12, 0x13, 0x14, 0x21, 0x22, 0x23, 0x24, 0x25, 0x26};

/* How many bytes and bits differ from `choices`. */
static int wrong_bits(void) {
    int wrong = 0, bits[256];
    for (int byte = 0; byte < 256; byte++)
        bits[byte] = 12;
    for (int bit = 0; bit < 12; bit++)
        bits[choices[bit]] = bit;
    for (int byte = 0; byte < 256; byte++)
        wrong += GEN1_CHOICE_BIT(byte) != bits[byte];
    for (int bit = 0; bit < 12;) {
        int want = choices[bit];
        wrong += GEN1_CHOICE_AT(bit++) != want; /* the macro evaluates its argument once */
    }
    return wrong;
}

/* The bytes of an event by "Log bytes", its detail, and its line by "Events". */
typedef struct told {
    uint8_t bytes[9];
    uint8_t detail;
    const char *line;
} told;

#define CANT(reason) {GEN1_EVENT_CANT, GEN1_ONE, GEN1_SPECIES_TAUROS, reason}, reason
#define DAMAGED(source)                                                                                                \
    {GEN1_EVENT_DAMAGE, GEN1_ONE, GEN1_SPECIES_TAUROS, 97, 0, 97, 1, GEN1_STATUS_NONE, source}, source
#define OF_VOLATILE(tag, it) {tag, GEN1_ONE, GEN1_SPECIES_TAUROS, it}, it

static const told events[] = {
    {CANT(GEN1_REASON_ASLEEP), "|cant|p1a: Tauros|slp\n"},
    {CANT(GEN1_REASON_FROZEN), "|cant|p1a: Tauros|frz\n"},
    {CANT(GEN1_REASON_PARTIALLY_TRAPPED), "|cant|p1a: Tauros|partiallytrapped\n"},
    {CANT(GEN1_REASON_FLINCHED), "|cant|p1a: Tauros|flinch\n"},
    {CANT(GEN1_REASON_RECHARGING), "|cant|p1a: Tauros|recharge\n"},
    {CANT(GEN1_REASON_DISABLED), "|cant|p1a: Tauros|Disable\n"},
    {CANT(GEN1_REASON_PARALYSED), "|cant|p1a: Tauros|par\n"},
    {DAMAGED(GEN1_SOURCE_DIRECT), "|-damage|p1a: Tauros|97/353\n"},
    {DAMAGED(GEN1_SOURCE_POISON), "|-damage|p1a: Tauros|97/353|[from] psn\n"},
    {DAMAGED(GEN1_SOURCE_BURN), "|-damage|p1a: Tauros|97/353|[from] brn\n"},
    {DAMAGED(GEN1_SOURCE_LEECH_SEED), "|-damage|p1a: Tauros|97/353|[from] Leech Seed\n"},
    {DAMAGED(GEN1_SOURCE_RECOIL), "|-damage|p1a: Tauros|97/353|[from] Recoil\n"},
    {DAMAGED(GEN1_SOURCE_CONFUSION), "|-damage|p1a: Tauros|97/353|[from] confusion\n"},
    {OF_VOLATILE(GEN1_EVENT_START, GEN1_VOLATILE_CONFUSION), "|-start|p1a: Tauros|confusion\n"},
    {OF_VOLATILE(GEN1_EVENT_ACTIVATE, GEN1_VOLATILE_BIDE), "|-activate|p1a: Tauros|Bide\n"},
    {OF_VOLATILE(GEN1_EVENT_END, GEN1_VOLATILE_SUBSTITUTE), "|-end|p1a: Tauros|Substitute\n"},
    {OF_VOLATILE(GEN1_EVENT_START, GEN1_VOLATILE_LEECH_SEED), "|-start|p1a: Tauros|Leech Seed\n"},
    {OF_VOLATILE(GEN1_EVENT_START, GEN1_VOLATILE_MIST), "|-start|p1a: Tauros|Mist\n"},
    {OF_VOLATILE(GEN1_EVENT_START, GEN1_VOLATILE_FOCUS_ENERGY), "|-start|p1a: Tauros|Focus Energy\n"},
    {OF_VOLATILE(GEN1_EVENT_START, GEN1_VOLATILE_LIGHT_SCREEN), "|-start|p1a: Tauros|Light Screen\n"},
    {OF_VOLATILE(GEN1_EVENT_START, GEN1_VOLATILE_REFLECT), "|-start|p1a: Tauros|Reflect\n"},
    {OF_VOLATILE(GEN1_EVENT_END, GEN1_VOLATILE_DISABLE), "|-end|p1a: Tauros|Disable\n"},
    {OF_VOLATILE(GEN1_EVENT_START, GEN1_VOLATILE_TYPE_CHANGE), "|-start|p1a: Tauros|typechange\n"},
    {OF_VOLATILE(GEN1_EVENT_START, GEN1_VOLATILE_TRAPPED), "|-start|p1a: Tauros|trapped\n"},
    {OF_VOLATILE(GEN1_EVENT_START, GEN1_VOLATILE_RAGE), "|-start|p1a: Tauros|Rage\n"},
    {OF_VOLATILE(GEN1_EVENT_ACTIVATE, GEN1_VOLATILE_SPLASH), "|-activate|p1a: Tauros|Splash\n"},
    {{GEN1_EVENT_FAULT, GEN1_FAULT_DIVISION}, GEN1_FAULT_DIVISION, "|fault|1\n"},
    {{GEN1_EVENT_FAULT, GEN1_FAULT_PSYWAVE}, GEN1_FAULT_PSYWAVE, "|fault|2\n"},
};

/* Whether an event has its detail as a struct, its line, and its bytes. */
static bool is_told(const told *it) {
    gen1_event event;
    char line[GEN1_LINE_ROOM];
    uint8_t bytes[10];
    size_t as_struct = 0, as_line = 0, length = 0, count = 0;
    return gen1_next_event(it->bytes, sizeof it->bytes, &as_struct, &event) == 0 && event.tag == it->bytes[0] &&
           event.detail == it->detail &&
           gen1_next_line(it->bytes, sizeof it->bytes, &as_line, line, sizeof line, &length) == 0 &&
           length == strlen(it->line) && strcmp(line, it->line) == 0 && gen1_event_bytes(&event, bytes, &count) == 0 &&
           count == as_struct && memcmp(bytes, it->bytes, count) == 0;
}

int main(void) {
    int wrong = wrong_bits();
    if (wrong > 0)
        printf("%d bits and choices are wrong\n", wrong);
    for (size_t at = 0; at < sizeof events / sizeof events[0]; at++)
        if (!is_told(&events[at])) {
            printf("event %zu is not %s", at, events[at].line);
            wrong++;
        }
    return wrong > 0;
}
