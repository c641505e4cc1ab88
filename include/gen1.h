/*
 * gen1.h - first-generation Pokemon link battles, for C and for languages that call C.
 *
 * The library is libgen1.so (shared) or libgen1_c.a (static). From the C library it needs at most memcpy, memmove, memset,
 * memcmp and bcmp. A library built from the plain sources (docs/PLAIN.md) also references abort, but never calls it.
 * packaging/README.md describes how to install the library and how to build a program with it.
 *
 * docs/MECHANICS.md describes the rules of battle, docs/TABLES.md the numbers of species, moves and types, and docs/LAYOUT.md
 * the 384 bytes of a battle. crates/gen1_c/CALLING.md lists the order in which to call the functions, and the proved contract
 * of each.
 *
 *   - Memory. No function allocates, frees, does input or output, blocks, or keeps a pointer. The caller owns all memory. A
 *     battle is just its 384 bytes: copy them to save a battle or to try a choice, write them to a file, or send them.
 *   - Threads. The library has no global state. Calls on different battles may run in different threads at the same time. Calls
 *     on the same battle may do so only if all of them take it as const.
 *   - Errors. Any number may be passed as an argument. If a number is out of range, the function returns a code, one of
 *     GEN1_ERROR_.. below. If a function returns a code, it has changed nothing that its pointers point to. The only exceptions
 *     are `fault` of gen1_team_from_text, gen1_team_from_packed and gen1_set_state, which then describes the error, and the two
 *     arrays of gen1_outcomes.
 *   - Pointers. The library cannot check pointers; the caller must. A pointer must not be NULL, and must point to as much memory
 *     as its type says, or as the size next to it says. NULL is allowed where that size is 0.
 *   - Overlap. Memory that a function may write must not overlap anything else that is passed to it. Memory that it takes as
 *     const may overlap: both teams of gen1_new may be the same team.
 *   - Valid battles. A battle made by gen1_new or gen1_load, and changed since only by functions of this header, is valid.
 *     After gen1_update_offered it is valid if both choices were offered. With any other 384 bytes each function still returns
 *     and stays within your memory, but its results are meaningless.
 */
#ifndef GEN1_H
#define GEN1_H

#include <stdbool.h>
#include <stddef.h>
#include <stdint.h>

#ifdef __cplusplus
extern "C" {
#endif

/*
 * The version of this header: as text, and as a number (65,536 * major + 256 * minor + patch). gen1_version returns the
 * version of the library.
 */
#define GEN1_VERSION "1.0.0"
#define GEN1_VERSION_NUMBER 0x010000

/* A battle (docs/LAYOUT.md). */
typedef struct gen1_battle {
    uint8_t bytes[384]; /* the whole battle, in the format of docs/LAYOUT.md; store or send them unchanged */
} gen1_battle;

/* A member of a team, as the caller describes it (docs/MECHANICS.md, "Teams"). */
typedef struct gen1_member {
    uint8_t species;    /* 1 to 151 */
    uint8_t level;      /* 1 to 100 */
    uint8_t dvs[4];     /* 0 to 15: Attack, Defense, Speed, Special */
    uint8_t moves[4];   /* 1 to 164 except 102, 118, 119 and 144, which the engine leaves out; all different, at least one. A 0
                           is skipped: the moves after it move up a slot */
    uint8_t pp_ups[4];  /* 0 to 3, for the move at the same index; ignored where the move is 0 */
    uint16_t exp[5];    /* experience, 0 to 65,535: HP, Attack, Defense, Speed, Special */
} gen1_member;

/* A team: the first `count` members. The remaining ones are ignored. */
typedef struct gen1_team {
    gen1_member members[6]; /* the member at place p is members[p - 1] */
    uint8_t count;          /* 1 to 6 */
    uint8_t reserved;       /* ignored; functions that write a team write 0 */
} gen1_team;

/* The size of a buffer that holds the log of any update, for any bytes of the battle. */
#define GEN1_LOG_ROOM 512

/* The size of a buffer that holds any line of gen1_next_line and its NUL. */
#define GEN1_LINE_ROOM 96

/* The two sides. */
enum { GEN1_ONE = 1, GEN1_TWO = 2 };

/* Rules: add up those that apply; 0 for none (docs/MECHANICS.md, "Rules (sleep clause, freeze clause)"). */
enum { GEN1_SLEEP_CLAUSE = 1, GEN1_FREEZE_CLAUSE = 2 };

/* The usual turn limit (docs/MECHANICS.md, "Turn limit"). */
#define GEN1_LIMIT 1000

/* A choice is one byte (docs/MECHANICS.md, "Offered choices"). */
#define GEN1_CHOICE_PASS 0x00
#define GEN1_CHOICE_MOVE(slot) (0x10 + (slot))     /* slot 1 to 4; 0 where no slot can be chosen */
#define GEN1_CHOICE_SWITCH(place) (0x20 + (place)) /* place 1 to 6 */

/* The status of a member: `status` of gen1_event, gen1_member_state and gen1_shown_member. */
enum {
    GEN1_STATUS_NONE, GEN1_STATUS_SLEEP, GEN1_STATUS_POISON, GEN1_STATUS_BURN, GEN1_STATUS_FREEZE, GEN1_STATUS_PARALYSIS
};

/*
 * Stats: `detail` of GEN1_EVENT_BOOST and GEN1_EVENT_UNBOOST. Stat n is at index n - 1 of `stages` and `stats` in
 * gen1_active_state.
 */
enum { GEN1_STAT_ATTACK = 1, GEN1_STAT_DEFENSE, GEN1_STAT_SPEED, GEN1_STAT_SPECIAL, GEN1_STAT_ACCURACY, GEN1_STAT_EVASION };

/* The kinds of choices, which gen1_choice_kind returns. */
enum { GEN1_KIND_NONE, GEN1_KIND_PASS, GEN1_KIND_MOVE, GEN1_KIND_SWITCH };

/*
 * Conditions of the active member (docs/MECHANICS.md, "Conditions"): `conditions` of gen1_active_state is the sum of those it
 * has.
 */
enum {
    GEN1_CONDITION_BIDE = 1, GEN1_CONDITION_THRASH = 2, GEN1_CONDITION_TRAPPING = 4, GEN1_CONDITION_FLINCH = 8,
    GEN1_CONDITION_CHARGING = 16, GEN1_CONDITION_INVULNERABLE = 32, GEN1_CONDITION_CONFUSED = 64, GEN1_CONDITION_MIST = 128,
    GEN1_CONDITION_FOCUS_ENERGY = 256, GEN1_CONDITION_SUBSTITUTE = 512, GEN1_CONDITION_RECHARGE = 1024,
    GEN1_CONDITION_RAGE = 2048, GEN1_CONDITION_SEEDED = 4096, GEN1_CONDITION_BAD_POISON = 8192,
    GEN1_CONDITION_LIGHT_SCREEN = 16384, GEN1_CONDITION_REFLECT = 32768, GEN1_CONDITION_DISABLED = 65536
};

/*
 * Why a battle had to stop: `detail` of GEN1_EVENT_FAULT. The outcome is then GEN1_OUTCOME_FAULT_ONE or GEN1_OUTCOME_FAULT_TWO,
 * in the same order.
 */
enum { GEN1_FAULT_DIVISION = 1, GEN1_FAULT_PSYWAVE };

/* tools/gen writes the lines from here to "end of the tables", from docs/TABLES.md and docs/MECHANICS.md. */

/* Types. */
enum {
    GEN1_TYPE_NORMAL = 0, GEN1_TYPE_FIGHTING, GEN1_TYPE_FLYING, GEN1_TYPE_POISON, GEN1_TYPE_GROUND, GEN1_TYPE_ROCK,
    GEN1_TYPE_BUG, GEN1_TYPE_GHOST, GEN1_TYPE_FIRE, GEN1_TYPE_WATER, GEN1_TYPE_GRASS, GEN1_TYPE_ELECTRIC, GEN1_TYPE_PSYCHIC,
    GEN1_TYPE_ICE, GEN1_TYPE_DRAGON
};

/* Species. */
enum {
    GEN1_SPECIES_BULBASAUR = 1, GEN1_SPECIES_IVYSAUR, GEN1_SPECIES_VENUSAUR, GEN1_SPECIES_CHARMANDER, GEN1_SPECIES_CHARMELEON,
    GEN1_SPECIES_CHARIZARD, GEN1_SPECIES_SQUIRTLE, GEN1_SPECIES_WARTORTLE, GEN1_SPECIES_BLASTOISE, GEN1_SPECIES_CATERPIE,
    GEN1_SPECIES_METAPOD, GEN1_SPECIES_BUTTERFREE, GEN1_SPECIES_WEEDLE, GEN1_SPECIES_KAKUNA, GEN1_SPECIES_BEEDRILL,
    GEN1_SPECIES_PIDGEY, GEN1_SPECIES_PIDGEOTTO, GEN1_SPECIES_PIDGEOT, GEN1_SPECIES_RATTATA, GEN1_SPECIES_RATICATE,
    GEN1_SPECIES_SPEAROW, GEN1_SPECIES_FEAROW, GEN1_SPECIES_EKANS, GEN1_SPECIES_ARBOK, GEN1_SPECIES_PIKACHU,
    GEN1_SPECIES_RAICHU, GEN1_SPECIES_SANDSHREW, GEN1_SPECIES_SANDSLASH, GEN1_SPECIES_NIDORAN_F, GEN1_SPECIES_NIDORINA,
    GEN1_SPECIES_NIDOQUEEN, GEN1_SPECIES_NIDORAN_M, GEN1_SPECIES_NIDORINO, GEN1_SPECIES_NIDOKING, GEN1_SPECIES_CLEFAIRY,
    GEN1_SPECIES_CLEFABLE, GEN1_SPECIES_VULPIX, GEN1_SPECIES_NINETALES, GEN1_SPECIES_JIGGLYPUFF, GEN1_SPECIES_WIGGLYTUFF,
    GEN1_SPECIES_ZUBAT, GEN1_SPECIES_GOLBAT, GEN1_SPECIES_ODDISH, GEN1_SPECIES_GLOOM, GEN1_SPECIES_VILEPLUME,
    GEN1_SPECIES_PARAS, GEN1_SPECIES_PARASECT, GEN1_SPECIES_VENONAT, GEN1_SPECIES_VENOMOTH, GEN1_SPECIES_DIGLETT,
    GEN1_SPECIES_DUGTRIO, GEN1_SPECIES_MEOWTH, GEN1_SPECIES_PERSIAN, GEN1_SPECIES_PSYDUCK, GEN1_SPECIES_GOLDUCK,
    GEN1_SPECIES_MANKEY, GEN1_SPECIES_PRIMEAPE, GEN1_SPECIES_GROWLITHE, GEN1_SPECIES_ARCANINE, GEN1_SPECIES_POLIWAG,
    GEN1_SPECIES_POLIWHIRL, GEN1_SPECIES_POLIWRATH, GEN1_SPECIES_ABRA, GEN1_SPECIES_KADABRA, GEN1_SPECIES_ALAKAZAM,
    GEN1_SPECIES_MACHOP, GEN1_SPECIES_MACHOKE, GEN1_SPECIES_MACHAMP, GEN1_SPECIES_BELLSPROUT, GEN1_SPECIES_WEEPINBELL,
    GEN1_SPECIES_VICTREEBEL, GEN1_SPECIES_TENTACOOL, GEN1_SPECIES_TENTACRUEL, GEN1_SPECIES_GEODUDE, GEN1_SPECIES_GRAVELER,
    GEN1_SPECIES_GOLEM, GEN1_SPECIES_PONYTA, GEN1_SPECIES_RAPIDASH, GEN1_SPECIES_SLOWPOKE, GEN1_SPECIES_SLOWBRO,
    GEN1_SPECIES_MAGNEMITE, GEN1_SPECIES_MAGNETON, GEN1_SPECIES_FARFETCHD, GEN1_SPECIES_DODUO, GEN1_SPECIES_DODRIO,
    GEN1_SPECIES_SEEL, GEN1_SPECIES_DEWGONG, GEN1_SPECIES_GRIMER, GEN1_SPECIES_MUK, GEN1_SPECIES_SHELLDER,
    GEN1_SPECIES_CLOYSTER, GEN1_SPECIES_GASTLY, GEN1_SPECIES_HAUNTER, GEN1_SPECIES_GENGAR, GEN1_SPECIES_ONIX,
    GEN1_SPECIES_DROWZEE, GEN1_SPECIES_HYPNO, GEN1_SPECIES_KRABBY, GEN1_SPECIES_KINGLER, GEN1_SPECIES_VOLTORB,
    GEN1_SPECIES_ELECTRODE, GEN1_SPECIES_EXEGGCUTE, GEN1_SPECIES_EXEGGUTOR, GEN1_SPECIES_CUBONE, GEN1_SPECIES_MAROWAK,
    GEN1_SPECIES_HITMONLEE, GEN1_SPECIES_HITMONCHAN, GEN1_SPECIES_LICKITUNG, GEN1_SPECIES_KOFFING, GEN1_SPECIES_WEEZING,
    GEN1_SPECIES_RHYHORN, GEN1_SPECIES_RHYDON, GEN1_SPECIES_CHANSEY, GEN1_SPECIES_TANGELA, GEN1_SPECIES_KANGASKHAN,
    GEN1_SPECIES_HORSEA, GEN1_SPECIES_SEADRA, GEN1_SPECIES_GOLDEEN, GEN1_SPECIES_SEAKING, GEN1_SPECIES_STARYU,
    GEN1_SPECIES_STARMIE, GEN1_SPECIES_MR_MIME, GEN1_SPECIES_SCYTHER, GEN1_SPECIES_JYNX, GEN1_SPECIES_ELECTABUZZ,
    GEN1_SPECIES_MAGMAR, GEN1_SPECIES_PINSIR, GEN1_SPECIES_TAUROS, GEN1_SPECIES_MAGIKARP, GEN1_SPECIES_GYARADOS,
    GEN1_SPECIES_LAPRAS, GEN1_SPECIES_DITTO, GEN1_SPECIES_EEVEE, GEN1_SPECIES_VAPOREON, GEN1_SPECIES_JOLTEON,
    GEN1_SPECIES_FLAREON, GEN1_SPECIES_PORYGON, GEN1_SPECIES_OMANYTE, GEN1_SPECIES_OMASTAR, GEN1_SPECIES_KABUTO,
    GEN1_SPECIES_KABUTOPS, GEN1_SPECIES_AERODACTYL, GEN1_SPECIES_SNORLAX, GEN1_SPECIES_ARTICUNO, GEN1_SPECIES_ZAPDOS,
    GEN1_SPECIES_MOLTRES, GEN1_SPECIES_DRATINI, GEN1_SPECIES_DRAGONAIR, GEN1_SPECIES_DRAGONITE, GEN1_SPECIES_MEWTWO,
    GEN1_SPECIES_MEW
};

/* Moves. */
enum {
    GEN1_MOVE_POUND = 1, GEN1_MOVE_KARATE_CHOP, GEN1_MOVE_DOUBLE_SLAP, GEN1_MOVE_COMET_PUNCH, GEN1_MOVE_MEGA_PUNCH,
    GEN1_MOVE_PAY_DAY, GEN1_MOVE_FIRE_PUNCH, GEN1_MOVE_ICE_PUNCH, GEN1_MOVE_THUNDER_PUNCH, GEN1_MOVE_SCRATCH,
    GEN1_MOVE_VICE_GRIP, GEN1_MOVE_GUILLOTINE, GEN1_MOVE_RAZOR_WIND, GEN1_MOVE_SWORDS_DANCE, GEN1_MOVE_CUT, GEN1_MOVE_GUST,
    GEN1_MOVE_WING_ATTACK, GEN1_MOVE_WHIRLWIND, GEN1_MOVE_FLY, GEN1_MOVE_BIND, GEN1_MOVE_SLAM, GEN1_MOVE_VINE_WHIP,
    GEN1_MOVE_STOMP, GEN1_MOVE_DOUBLE_KICK, GEN1_MOVE_MEGA_KICK, GEN1_MOVE_JUMP_KICK, GEN1_MOVE_ROLLING_KICK,
    GEN1_MOVE_SAND_ATTACK, GEN1_MOVE_HEADBUTT, GEN1_MOVE_HORN_ATTACK, GEN1_MOVE_FURY_ATTACK, GEN1_MOVE_HORN_DRILL,
    GEN1_MOVE_TACKLE, GEN1_MOVE_BODY_SLAM, GEN1_MOVE_WRAP, GEN1_MOVE_TAKE_DOWN, GEN1_MOVE_THRASH, GEN1_MOVE_DOUBLE_EDGE,
    GEN1_MOVE_TAIL_WHIP, GEN1_MOVE_POISON_STING, GEN1_MOVE_TWINEEDLE, GEN1_MOVE_PIN_MISSILE, GEN1_MOVE_LEER, GEN1_MOVE_BITE,
    GEN1_MOVE_GROWL, GEN1_MOVE_ROAR, GEN1_MOVE_SING, GEN1_MOVE_SUPERSONIC, GEN1_MOVE_SONIC_BOOM, GEN1_MOVE_DISABLE,
    GEN1_MOVE_ACID, GEN1_MOVE_EMBER, GEN1_MOVE_FLAMETHROWER, GEN1_MOVE_MIST, GEN1_MOVE_WATER_GUN, GEN1_MOVE_HYDRO_PUMP,
    GEN1_MOVE_SURF, GEN1_MOVE_ICE_BEAM, GEN1_MOVE_BLIZZARD, GEN1_MOVE_PSYBEAM, GEN1_MOVE_BUBBLE_BEAM, GEN1_MOVE_AURORA_BEAM,
    GEN1_MOVE_HYPER_BEAM, GEN1_MOVE_PECK, GEN1_MOVE_DRILL_PECK, GEN1_MOVE_SUBMISSION, GEN1_MOVE_LOW_KICK, GEN1_MOVE_COUNTER,
    GEN1_MOVE_SEISMIC_TOSS, GEN1_MOVE_STRENGTH, GEN1_MOVE_ABSORB, GEN1_MOVE_MEGA_DRAIN, GEN1_MOVE_LEECH_SEED, GEN1_MOVE_GROWTH,
    GEN1_MOVE_RAZOR_LEAF, GEN1_MOVE_SOLAR_BEAM, GEN1_MOVE_POISON_POWDER, GEN1_MOVE_STUN_SPORE, GEN1_MOVE_SLEEP_POWDER,
    GEN1_MOVE_PETAL_DANCE, GEN1_MOVE_STRING_SHOT, GEN1_MOVE_DRAGON_RAGE, GEN1_MOVE_FIRE_SPIN, GEN1_MOVE_THUNDER_SHOCK,
    GEN1_MOVE_THUNDERBOLT, GEN1_MOVE_THUNDER_WAVE, GEN1_MOVE_THUNDER, GEN1_MOVE_ROCK_THROW, GEN1_MOVE_EARTHQUAKE,
    GEN1_MOVE_FISSURE, GEN1_MOVE_DIG, GEN1_MOVE_TOXIC, GEN1_MOVE_CONFUSION, GEN1_MOVE_PSYCHIC, GEN1_MOVE_HYPNOSIS,
    GEN1_MOVE_MEDITATE, GEN1_MOVE_AGILITY, GEN1_MOVE_QUICK_ATTACK, GEN1_MOVE_RAGE, GEN1_MOVE_TELEPORT, GEN1_MOVE_NIGHT_SHADE,
    GEN1_MOVE_MIMIC, GEN1_MOVE_SCREECH, GEN1_MOVE_DOUBLE_TEAM, GEN1_MOVE_RECOVER, GEN1_MOVE_HARDEN, GEN1_MOVE_MINIMIZE,
    GEN1_MOVE_SMOKESCREEN, GEN1_MOVE_CONFUSE_RAY, GEN1_MOVE_WITHDRAW, GEN1_MOVE_DEFENSE_CURL, GEN1_MOVE_BARRIER,
    GEN1_MOVE_LIGHT_SCREEN, GEN1_MOVE_HAZE, GEN1_MOVE_REFLECT, GEN1_MOVE_FOCUS_ENERGY, GEN1_MOVE_BIDE, GEN1_MOVE_METRONOME,
    GEN1_MOVE_MIRROR_MOVE, GEN1_MOVE_SELF_DESTRUCT, GEN1_MOVE_EGG_BOMB, GEN1_MOVE_LICK, GEN1_MOVE_SMOG, GEN1_MOVE_SLUDGE,
    GEN1_MOVE_BONE_CLUB, GEN1_MOVE_FIRE_BLAST, GEN1_MOVE_WATERFALL, GEN1_MOVE_CLAMP, GEN1_MOVE_SWIFT, GEN1_MOVE_SKULL_BASH,
    GEN1_MOVE_SPIKE_CANNON, GEN1_MOVE_CONSTRICT, GEN1_MOVE_AMNESIA, GEN1_MOVE_KINESIS, GEN1_MOVE_SOFT_BOILED,
    GEN1_MOVE_HIGH_JUMP_KICK, GEN1_MOVE_GLARE, GEN1_MOVE_DREAM_EATER, GEN1_MOVE_POISON_GAS, GEN1_MOVE_BARRAGE,
    GEN1_MOVE_LEECH_LIFE, GEN1_MOVE_LOVELY_KISS, GEN1_MOVE_SKY_ATTACK, GEN1_MOVE_TRANSFORM, GEN1_MOVE_BUBBLE,
    GEN1_MOVE_DIZZY_PUNCH, GEN1_MOVE_SPORE, GEN1_MOVE_FLASH, GEN1_MOVE_PSYWAVE, GEN1_MOVE_SPLASH, GEN1_MOVE_ACID_ARMOR,
    GEN1_MOVE_CRABHAMMER, GEN1_MOVE_EXPLOSION, GEN1_MOVE_FURY_SWIPES, GEN1_MOVE_BONEMERANG, GEN1_MOVE_REST,
    GEN1_MOVE_ROCK_SLIDE, GEN1_MOVE_HYPER_FANG, GEN1_MOVE_SHARPEN, GEN1_MOVE_CONVERSION, GEN1_MOVE_TRI_ATTACK,
    GEN1_MOVE_SUPER_FANG, GEN1_MOVE_SLASH, GEN1_MOVE_SUBSTITUTE, GEN1_MOVE_STRUGGLE
};

/* What moves do besides their damage: `effect` of gen1_move (docs/TABLES.md, "Effects"). */
enum {
    GEN1_EFFECT_DAMAGE_ONLY = 0, GEN1_EFFECT_ALWAYS_FAILS, GEN1_EFFECT_MULTI_HIT, GEN1_EFFECT_PAY_DAY,
    GEN1_EFFECT_FREEZE_CHANCE, GEN1_EFFECT_CHARGE, GEN1_EFFECT_CHARGE_INVULNERABLE, GEN1_EFFECT_TRAPPING,
    GEN1_EFFECT_ONE_HIT_KNOCK_OUT, GEN1_EFFECT_DOUBLE_HIT, GEN1_EFFECT_TWINEEDLE, GEN1_EFFECT_CRASH_ON_MISS, GEN1_EFFECT_RECOIL,
    GEN1_EFFECT_THRASH, GEN1_EFFECT_INFLICT_SLEEP, GEN1_EFFECT_INFLICT_CONFUSION, GEN1_EFFECT_FIXED_DAMAGE, GEN1_EFFECT_DISABLE,
    GEN1_EFFECT_MIST, GEN1_EFFECT_RECHARGE, GEN1_EFFECT_COUNTER, GEN1_EFFECT_DRAIN, GEN1_EFFECT_LEECH_SEED,
    GEN1_EFFECT_INFLICT_POISON, GEN1_EFFECT_INFLICT_PARALYSIS, GEN1_EFFECT_RAGE, GEN1_EFFECT_LEFT_OUT, GEN1_EFFECT_HEAL,
    GEN1_EFFECT_SCREEN, GEN1_EFFECT_HAZE, GEN1_EFFECT_FOCUS_ENERGY, GEN1_EFFECT_BIDE, GEN1_EFFECT_EXPLODE,
    GEN1_EFFECT_NEVER_MISSES, GEN1_EFFECT_DREAM_EATER, GEN1_EFFECT_SPLASH, GEN1_EFFECT_CONVERSION, GEN1_EFFECT_SUPER_FANG,
    GEN1_EFFECT_SUBSTITUTE, GEN1_EFFECT_BURN_CHANCE, GEN1_EFFECT_PARALYSIS_CHANCE, GEN1_EFFECT_POISON_CHANCE,
    GEN1_EFFECT_FLINCH_CHANCE, GEN1_EFFECT_CONFUSION_CHANCE, GEN1_EFFECT_STAT_DOWN_CHANCE, GEN1_EFFECT_STAT_UP,
    GEN1_EFFECT_STAT_DOWN
};

/* Why a member could not act: `detail` of GEN1_EVENT_CANT. */
enum {
    GEN1_REASON_ASLEEP = 1, GEN1_REASON_FROZEN, GEN1_REASON_PARTIALLY_TRAPPED, GEN1_REASON_FLINCHED, GEN1_REASON_RECHARGING,
    GEN1_REASON_DISABLED, GEN1_REASON_PARALYSED
};

/* What dealt damage: `detail` of GEN1_EVENT_DAMAGE. */
enum {
    GEN1_SOURCE_DIRECT = 0, GEN1_SOURCE_POISON, GEN1_SOURCE_BURN, GEN1_SOURCE_LEECH_SEED, GEN1_SOURCE_RECOIL,
    GEN1_SOURCE_CONFUSION
};

/* What began, ended or showed: `detail` of GEN1_EVENT_START, GEN1_EVENT_END and GEN1_EVENT_ACTIVATE. */
enum {
    GEN1_VOLATILE_CONFUSION = 1, GEN1_VOLATILE_BIDE, GEN1_VOLATILE_SUBSTITUTE, GEN1_VOLATILE_LEECH_SEED, GEN1_VOLATILE_MIST,
    GEN1_VOLATILE_FOCUS_ENERGY, GEN1_VOLATILE_LIGHT_SCREEN, GEN1_VOLATILE_REFLECT, GEN1_VOLATILE_DISABLE,
    GEN1_VOLATILE_TYPE_CHANGE, GEN1_VOLATILE_TRAPPED, GEN1_VOLATILE_RAGE, GEN1_VOLATILE_SPLASH
};

/* end of the tables */

/* ---- errors ---- */

/*
 * Codes. A function that returns a code returns 0 or one of these. A number means the same error in every function.
 * gen1_error_text writes a code in words.
 */
enum {
    /* Teams and terms. */
    GEN1_ERROR_TEAM_EMPTY = 1,      /* the team has no member */
    GEN1_ERROR_TEAM_TOO_LONG = 2,   /* the team has more than six members */
    GEN1_ERROR_LEVEL = 3,           /* the level is not 1 to 100 */
    GEN1_ERROR_DV = 4,              /* a DV is above 15 */
    GEN1_ERROR_NO_MOVE = 5,         /* the member has no move */
    GEN1_ERROR_MOVE_LEFT_OUT = 6,   /* a move is one of the four that the engine leaves out */
    GEN1_ERROR_STRUGGLE = 7,        /* a move is Struggle */
    GEN1_ERROR_REPEATED_MOVE = 8,   /* a move is repeated */
    GEN1_ERROR_PP_UPS = 9,          /* a move has more than three PP ups */
    GEN1_ERROR_SPECIES = 10,        /* the species is not 1 to 151 */
    GEN1_ERROR_MOVE = 11,           /* a move is not 1 to 165 */
    GEN1_ERROR_RULES = 12,          /* the rules are above 3 */
    GEN1_ERROR_TURN_LIMIT = 13,     /* the limit is not 1 to 9,999 */
    GEN1_ERROR_FOES = 14,           /* the number of the foe's members is above 6 */

    /* Loading: the first test that bytes fail (docs/LAYOUT.md, "Loading"). */
    GEN1_ERROR_LOAD_LENGTH = 16,    /* there are not 384 bytes */
    GEN1_ERROR_LOAD_VERSION = 17,   /* the version, byte 0, is not 1, 2 or 3 */
    GEN1_ERROR_LOAD_HEADER = 18,    /* a field of the header is out of its range */
    GEN1_ERROR_LOAD_MEMBER = 19,    /* a member is out of its ranges, or stands behind an empty place */
    GEN1_ERROR_LOAD_ACTIVE = 20,    /* an active block is out of its ranges, or does not fit its current move */
    GEN1_ERROR_LOAD_STAT = 21,      /* a current stat is not what stage and penalties make of the member's own */
    GEN1_ERROR_LOAD_REQUEST = 22,   /* turn, outcome, requests and living members do not fit together */
    GEN1_ERROR_STATE = 23,          /* a field of a state is wrong: its gen1_state_fault says which */

    /* Updates. */
    GEN1_ERROR_OVER = 24,           /* the battle is over */
    GEN1_ERROR_NOT_OFFERED_ONE = 25, /* side 1's choice was not offered (and perhaps not side 2's either) */
    GEN1_ERROR_NOT_OFFERED_TWO = 26, /* side 2's choice was not offered */
    GEN1_ERROR_SMALL_LOG = 27,      /* the buffer for the log is smaller than 512 bytes, or than the log */
    GEN1_ERROR_LONG_LOG = 28,       /* the log is longer than 512 bytes, the most that one update writes */
    GEN1_ERROR_OUTCOMES = 29,       /* the array has fewer places than there are outcomes */
    GEN1_ERROR_TABLE = 30,          /* the table has fewer places than there are outcomes */
    GEN1_ERROR_DRAWS = 31,          /* the update has too many draws to list its outcomes; no such update is known */

    /* Logs. */
    GEN1_ERROR_LOG_TAG = 32,        /* unknown event tag */
    GEN1_ERROR_LOG_FIELD = 33,      /* a field of an event is out of range */
    GEN1_ERROR_LOG_CUT = 34,        /* the bytes end within an event */
    GEN1_ERROR_LOG_END = 35,        /* the index is at the end of the log, or past it */

    /* Walks. */
    GEN1_ERROR_WALK_END = 36,       /* no way is left */

    /* Arguments. */
    GEN1_ERROR_SIDE = 40,           /* the side is neither 1 nor 2 */
    GEN1_ERROR_SMALL_TEXT = 41,     /* the text and its NUL do not fit in the buffer */
    GEN1_ERROR_UNKNOWN = 42,        /* nothing has this number */
    GEN1_ERROR_CHOICE = 43,         /* the byte is not a choice */
    GEN1_ERROR_NOBODY = 44,         /* the slot has no move, the place has no member, or no member is out yet */
    GEN1_ERROR_LENGTHS = 45,        /* an array does not have the length of the array of battles */
    GEN1_ERROR_INDEX = 46,          /* the index is not 0 to 8 */
    GEN1_ERROR_PLACE = 47,          /* the place is not 1 to 6 */

    /* Calculating. */
    GEN1_ERROR_UNUSUAL = 48,        /* the move does not have the usual damage: it has no power, or its own damage rule */
    GEN1_ERROR_DIVISOR = 49,        /* the damage would be divided by 0: the defense that counts in this hit is 0 */
    GEN1_ERROR_NOBODY_OUT = 50,     /* no member is out: the battle is before its first update */

    /* Rooms. */
    GEN1_ERROR_STALE = 52,          /* the number is not that of the current pair */
    GEN1_ERROR_CHOSEN = 53,         /* the side has already chosen */
    GEN1_ERROR_NOT_OFFERED = 54,    /* the choice is not offered to the side */
    GEN1_ERROR_NO_CANCEL = 55,      /* the host does not let a side take its choice back */
    GEN1_ERROR_NOTHING_CHOSEN = 56, /* the side has made no choice that it could take back */
    GEN1_ERROR_ROW = 57,            /* the kind of the row is not 1 to 5 */

    /* Choices out of words. */
    GEN1_ERROR_WORDS = 58,          /* the words say no choice, such as "move 1" or "switch 2", or name no move or species */
    GEN1_ERROR_AMBIGUOUS = 59,      /* the words name two or more of the offered choices */

    /* Teams out of text: what was expected. */
    GEN1_ERROR_TEXT_SPECIES = 64,   /* the name of a species of the first generation */
    GEN1_ERROR_TEXT_ITEM = 65,      /* no item: the first generation has no items */
    GEN1_ERROR_TEXT_SEVENTH_MEMBER = 66, /* at most six members */
    GEN1_ERROR_TEXT_LEVEL = 67,     /* a level from 1 to 100 */
    GEN1_ERROR_TEXT_EVS = 68,       /* EVs from 0 to 255, such as "252 HP / 4 Atk", or packed "252,4,,,," */
    GEN1_ERROR_TEXT_SPECIAL_EVS = 69, /* the same EVs for SpA and SpD: the first generation has one Special */
    GEN1_ERROR_TEXT_IVS = 70,       /* IVs from 0 to 31, such as "14 HP / 0 Atk", or packed "14,0,,,," */
    GEN1_ERROR_TEXT_SPECIAL_IVS = 71, /* the same IVs for SpA and SpD */
    GEN1_ERROR_TEXT_HP_IV = 72,     /* the HP IV that follows from the others, or none */
    GEN1_ERROR_TEXT_MOVE = 73,      /* the name of a move of the first generation */
    GEN1_ERROR_TEXT_FIFTH_MOVE = 74, /* at most four moves */
    GEN1_ERROR_TEXT_LINE = 75,      /* a line of a member, such as "Level: 50", "EVs: 252 HP", "IVs: 0 Atk" or "- Body Slam" */
    GEN1_ERROR_TEXT_FIELDS = 76,    /* packed: twelve fields separated by `|` */
    GEN1_ERROR_TEXT_TEAM = 77,      /* members that form a valid team: `rule` has the code of the error, `member` the member */

    /* Teams as text. */
    GEN1_ERROR_UNWRITABLE = 78,     /* a move has other than three PP ups, and a text has no place for them */

    /* Hosts that were stored: the first test that the bytes fail, after those of the battle. */
    GEN1_ERROR_HOST_NUMBER = 80,    /* the number leaves no place for the pairs that may still come */
    GEN1_ERROR_HOST_LOG = 81,       /* the log has more than 512 bytes, or is no log */
    GEN1_ERROR_HOST_CHOICE_ONE = 82, /* side 1's choice is not offered, or is missing though nothing is asked */
    GEN1_ERROR_HOST_CHOICE_TWO = 83, /* side 2's choice is not offered, or is missing though nothing is asked */
    GEN1_ERROR_HOST_CHOICES = 84,   /* both choices are there while the battle continues */
    GEN1_ERROR_HOST_TELLER_ONE = 85, /* the teller of side 1 is another's, or its places are out of order */
    GEN1_ERROR_HOST_TELLER_TWO = 86, /* the teller of side 2 is another's, its places are out of order, or its form of HP differs */
    GEN1_ERROR_HOST_ENDING = 87,    /* the ending is above 3 */
    GEN1_ERROR_HOST_DRAW = 88,      /* the side that offers a draw is above 2 */
    GEN1_ERROR_HOST_RULES = 89,     /* an option is above 1 */
    GEN1_ERROR_HOST_UNUSED = 90,    /* an unused byte, or the forfeit of the room, is not 0 */

    /* Guesses of what a player can't know: what does not fit. */
    GEN1_ERROR_NOT_GOING_ON = 96,   /* the player is in no battle that has begun and is not over */
    GEN1_ERROR_GUESS_COUNT = 97,    /* the guessed team does not have as many members as the foe */
    GEN1_ERROR_GUESS_MEMBER = 98,   /* a member of the guessed team is not the one that appeared */
    GEN1_ERROR_GUESS_MOVE = 99,     /* a member of the guessed team does not know a move that it was seen to use */
    GEN1_ERROR_GUESS_HP = 100       /* the maximum HP of a member of the guessed team does not allow the HP that the player was told */
};

/* The size of a buffer that holds any sentence of gen1_error_text or gen1_next_sentence, and its NUL. */
#define GEN1_SENTENCE_ROOM 128

/*
 * Writes the meaning of a code, as one sentence that gives the valid range, such as "a DV is above 15". Every code
 * GEN1_ERROR_.. has a sentence. For a result of gen1_new, or of a function that returns the same, pass GEN1_CODE_OF(result).
 * The sentence of code 0 is "nothing is at fault".
 *
 * The sentence and a NUL are written to the beginning of `text`, whose size is `room`; the rest of `text` does not change.
 * `*length` becomes the number of bytes before the NUL. Returns 0; GEN1_ERROR_UNKNOWN for any other number; or
 * GEN1_ERROR_SMALL_TEXT if the sentence and its NUL do not fit. If it returns a code, nothing has changed.
 */
uint8_t gen1_error_text(uint8_t code, char *text, size_t room, size_t *length);

/* ---- beginning ---- */

/*
 * Creates a battle of two teams, before its first update, and overwrites `*battle` with it.
 *
 * `seed` is ten bytes with any values (docs/MECHANICS.md, "Link numbers"). `rules` is 0 to 3. `limit` is the last turn, 1 to
 * 9,999; GEN1_LIMIT is usual.
 *
 * Returns 0, or the first error, which the three macros below take apart. The arguments are tested in this order: the rules,
 * the limit, team one, team two. In a team the number of members is tested first, then the species and moves of each member,
 * then the rules of teams (docs/MECHANICS.md, "Teams").
 */
uint32_t gen1_new(gen1_battle *battle, const gen1_team *one, const gen1_team *two, const uint8_t seed[10], uint8_t rules,
                  uint16_t limit);

#define GEN1_CODE_OF(answer) ((answer) & 0xff)       /* a code: GEN1_ERROR_TEAM_EMPTY to GEN1_ERROR_TURN_LIMIT */
#define GEN1_PLACE_OF(answer) ((answer) >> 8 & 0xff) /* the place of the member with the error, 1 to 6; 0 if it is not about a
                                                        member */
#define GEN1_SIDE_OF(answer) ((answer) >> 16)        /* the team with the error, 1 or 2; 0 if it is not about a team */

/*
 * Reads a battle from `count` bytes in any of the three versions of the layout (docs/LAYOUT.md, "Loading").
 *
 * Returns 0, or the code of the first test that the bytes fail, GEN1_ERROR_LOAD_LENGTH to GEN1_ERROR_LOAD_REQUEST; then
 * `*battle` has not changed. To test a battle in place, load its bytes into another battle.
 */
uint8_t gen1_load(gen1_battle *battle, const uint8_t *bytes, size_t count);

/*
 * Writes ten numbers that a number determines, for `seed` of gen1_new: the lowest byte of each of ten draws of gen1_playout's generator
 * whose state is `number`. Two numbers may give the same ten. A server takes bytes of the operating system's source instead.
 */
void gen1_seed_from_number(uint64_t number, uint8_t seed[10]);

/* ---- playing ---- */

/*
 * Lists the choices that a side is offered (docs/MECHANICS.md, "Offered choices").
 *
 * Writes the bytes of the choices, in rising order, to the beginning of `choices`; the rest of the array does not change.
 * Returns how many there are: 1 to 9, or 0 if the battle is over or `side` is neither 1 nor 2.
 */
uint8_t gen1_choices(const gen1_battle *battle, uint8_t side, uint8_t choices[9]);

/*
 * Returns the choices that a side is offered as a mask of twelve bits: bit GEN1_CHOICE_BIT(choice) is 1 if and only if
 * gen1_choices lists the choice.
 *
 * The bits are in the order of the bytes: bit 0 is GEN1_CHOICE_PASS, bits 1 to 5 are GEN1_CHOICE_MOVE(0) to
 * GEN1_CHOICE_MOVE(4), bits 6 to 11 are GEN1_CHOICE_SWITCH(1) to GEN1_CHOICE_SWITCH(6). The mask is 0 if the battle is over or
 * `side` is neither 1 nor 2.
 */
uint16_t gen1_offered(const gen1_battle *battle, uint8_t side);

/* Returns the bit of a choice, 0 to 11. For a byte that is not a choice it returns 12, a bit that is 0 in every mask. */
static inline int GEN1_CHOICE_BIT(int choice)
{
    if (choice == GEN1_CHOICE_PASS)
        return 0;
    if (choice >= GEN1_CHOICE_MOVE(0) && choice <= GEN1_CHOICE_MOVE(4))
        return choice - GEN1_CHOICE_MOVE(0) + 1;
    return choice >= GEN1_CHOICE_SWITCH(1) && choice <= GEN1_CHOICE_SWITCH(6) ? choice - GEN1_CHOICE_SWITCH(1) + 6 : 12;
}

/* Returns the choice of a bit from 0 to 11. */
static inline int GEN1_CHOICE_AT(int bit)
{
    return bit == 0 ? GEN1_CHOICE_PASS : bit < 6 ? GEN1_CHOICE_MOVE(0) + bit - 1 : GEN1_CHOICE_SWITCH(1) + bit - 6;
}

/*
 * Plays one update: a choice of each side. The first update of a battle takes GEN1_CHOICE_PASS from both sides, and sends out
 * the first member of each.
 *
 * `room` is the size of `log`, at least GEN1_LOG_ROOM. The log of the update is written to the beginning of `log`, and its
 * length in bytes to `*length`; the rest of `log` does not change.
 *
 * Returns 0, or the first of these codes that applies: GEN1_ERROR_SMALL_LOG, GEN1_ERROR_OVER, GEN1_ERROR_NOT_OFFERED_ONE,
 * GEN1_ERROR_NOT_OFFERED_TWO. If it returns a code, nothing has changed, even if the bytes of `battle` are not valid.
 */
uint8_t gen1_update(gen1_battle *battle, uint8_t one, uint8_t two, uint8_t *log, size_t room, size_t *length);

/* Plays one update like gen1_update, without a log. */
uint8_t gen1_update_silent(gen1_battle *battle, uint8_t one, uint8_t two);

/*
 * Play one update like gen1_update and gen1_update_silent, without testing that the choices are offered. They are for callers
 * that took both choices from gen1_choices or gen1_offered.
 *
 * Return 0, or the first of these codes that applies, and then nothing has changed: GEN1_ERROR_SMALL_LOG; or
 * GEN1_ERROR_NOT_OFFERED_ONE or GEN1_ERROR_NOT_OFFERED_TWO for a byte that is not a choice at all.
 *
 * If a choice is not offered, or the battle is over, `*battle` may be invalid afterwards; gen1_load detects this. The log and its
 * length are written as usual, and no other memory is written.
 */
uint8_t gen1_update_offered(gen1_battle *battle, uint8_t one, uint8_t two, uint8_t *log, size_t room, size_t *length);
uint8_t gen1_update_offered_silent(gen1_battle *battle, uint8_t one, uint8_t two);

/*
 * Returns the outcome so far and the request to each side for the next update, in one byte, which these macros take apart. For
 * any 384 bytes each of the three is one of its constants below.
 */
uint8_t gen1_result(const gen1_battle *battle);

#define GEN1_RESULT_OUTCOME(result) ((result) & 7)          /* GEN1_OUTCOME_ONGOING to GEN1_OUTCOME_FAULT_TWO */
#define GEN1_RESULT_REQUEST_ONE(result) ((result) >> 3 & 3) /* to side 1: GEN1_REQUEST_NOTHING to GEN1_REQUEST_SWITCH */
#define GEN1_RESULT_REQUEST_TWO(result) ((result) >> 5 & 3) /* to side 2, likewise */

enum {
    GEN1_OUTCOME_ONGOING, GEN1_OUTCOME_WIN_ONE, GEN1_OUTCOME_WIN_TWO, GEN1_OUTCOME_TIE, GEN1_OUTCOME_FAULT_ONE,
    GEN1_OUTCOME_FAULT_TWO
};
enum { GEN1_REQUEST_NOTHING, GEN1_REQUEST_MOVE, GEN1_REQUEST_SWITCH };

/* ---- telling ---- */

/*
 * An event of a log (docs/MECHANICS.md, "Events"). The numbers are those of the log; a field that the event does not have is 0.
 * GEN1_EVENT_SWITCH, GEN1_EVENT_DAMAGE and GEN1_EVENT_HEAL have the health of a member: `hp`, `max_hp` and `status`.
 */
typedef struct gen1_event {
    uint8_t tag;            /* the kind of event: GEN1_EVENT_TURN to GEN1_EVENT_FAULT, 1 to 28 */
    uint8_t side;           /* the side that the event is about, or that wins: 1 or 2 */
    uint8_t species;        /* the species of the member that the event is about, 1 to 151 */
    uint8_t move;           /* GEN1_EVENT_MOVE and GEN1_EVENT_PREPARE: 1 to 165 */
    uint8_t target_side;    /* GEN1_EVENT_MOVE: the foe's side, 1 or 2 */
    uint8_t target_species; /* GEN1_EVENT_MOVE: the foe's species, 1 to 151 */
    uint8_t place;          /* GEN1_EVENT_SWITCH: 1 to 6 */
    uint8_t level;          /* GEN1_EVENT_SWITCH: 1 to 100 */
    uint8_t status;         /* part of the health; in GEN1_EVENT_STATUS and GEN1_EVENT_CURE the status that begins or ends,
                               never GEN1_STATUS_NONE */
    uint8_t detail;         /* GEN1_EVENT_CANT: a GEN1_REASON_..; GEN1_EVENT_DAMAGE: a GEN1_SOURCE_..; GEN1_EVENT_START,
                               GEN1_EVENT_END and GEN1_EVENT_ACTIVATE: a GEN1_VOLATILE_..; GEN1_EVENT_BOOST and
                               GEN1_EVENT_UNBOOST: a GEN1_STAT_..; GEN1_EVENT_FAULT: GEN1_FAULT_DIVISION or
                               GEN1_FAULT_PSYWAVE */
    uint8_t amount;         /* GEN1_EVENT_BOOST and GEN1_EVENT_UNBOOST: stages, 1 or 2; GEN1_EVENT_HIT_COUNT: hits, 1 to 5 */
    uint8_t reserved;       /* 0 */
    uint16_t hp;            /* part of the health: 0 to max_hp */
    uint16_t max_hp;        /* part of the health: 11 to 999 */
    uint16_t turn;          /* GEN1_EVENT_TURN: 1 to 9,999 */
} gen1_event;

enum {
    GEN1_EVENT_TURN = 1, GEN1_EVENT_SWITCH, GEN1_EVENT_MOVE, GEN1_EVENT_CANT, GEN1_EVENT_DAMAGE, GEN1_EVENT_HEAL,
    GEN1_EVENT_CRIT, GEN1_EVENT_SUPER_EFFECTIVE, GEN1_EVENT_RESISTED, GEN1_EVENT_IMMUNE, GEN1_EVENT_MISS, GEN1_EVENT_FAIL,
    GEN1_EVENT_STATUS, GEN1_EVENT_CURE, GEN1_EVENT_BOOST, GEN1_EVENT_UNBOOST, GEN1_EVENT_CLEAR_ALL, GEN1_EVENT_START,
    GEN1_EVENT_END, GEN1_EVENT_ACTIVATE, GEN1_EVENT_PREPARE, GEN1_EVENT_MUST_RECHARGE, GEN1_EVENT_HIT_COUNT,
    GEN1_EVENT_ONE_HIT_KNOCK_OUT, GEN1_EVENT_FAINT, GEN1_EVENT_WIN, GEN1_EVENT_TIE, GEN1_EVENT_FAULT
};

/*
 * Reads the event that begins at index `*at` of a log of `count` bytes, and moves `*at` to the next event. Start with `*at` 0.
 * The log may be the logs of several updates, one after the other.
 *
 * Returns 0; GEN1_ERROR_LOG_END if no event is left; or GEN1_ERROR_LOG_TAG, GEN1_ERROR_LOG_FIELD or GEN1_ERROR_LOG_CUT. If it
 * returns a code, nothing has changed.
 */
uint8_t gen1_next_event(const uint8_t *log, size_t count, size_t *at, gen1_event *event);

/*
 * Writes the log bytes of an event to the beginning of `bytes`, and how many there are, at most 10, to `*length`; the rest of
 * `bytes` does not change. gen1_next_event reads the same event from these bytes.
 *
 * Fields that the event does not have are ignored. Returns 0; GEN1_ERROR_LOG_TAG if `tag` is not 1 to 28; or
 * GEN1_ERROR_LOG_FIELD if a field is out of range. If it returns a code, nothing has changed.
 */
uint8_t gen1_event_bytes(const gen1_event *event, uint8_t bytes[10], size_t *length);

/*
 * Reads an event like gen1_next_event, and writes it as a line of text (docs/MECHANICS.md, "Lines"), the line that `battle_tool`
 * prints, with its line feed.
 *
 * `room` is the size of `text`; GEN1_LINE_ROOM is always enough. The line and a NUL are written to the beginning of `text`; the
 * rest of `text` does not change. `*length` becomes the number of bytes before the NUL. Returns 0, a code of gen1_next_event, or
 * GEN1_ERROR_SMALL_TEXT.
 */
uint8_t gen1_next_line(const uint8_t *log, size_t count, size_t *at, char *text, size_t room, size_t *length);

/* The member of a side that is out, as the events so far show it. */
typedef struct gen1_told {
    uint16_t hp;        /* its HP, in the units of the log */
    uint8_t species;    /* 0 before the first came out */
    uint8_t in_percent; /* not 0: the HP of this side are said in per cent */
} gen1_told;

/*
 * Who reads the sentences, and which members are out. Any bytes are a narrator; zeros are that of a spectator, before a battle. For a
 * log of gen1_tell, in which HP of the foe are 48ths, set `you`, and `in_percent` of the foe.
 */
typedef struct gen1_narrator {
    gen1_told one;    /* of side 1 */
    gen1_told two;    /* of side 2 */
    uint8_t you;      /* the side that reads, 1 or 2: "Your Tauros", "The foe's Tauros"; else "Side 1's Tauros" */
    uint8_t reserved; /* ignored */
} gen1_narrator;

#define GEN1_NARRATOR_SIZE 10 /* the size of a gen1_narrator, for other languages; its alignment is 2 */

/*
 * Reads an event like gen1_next_event, writes it as a sentence, such as "Side 1's Tauros loses 120 HP, down to 233 of 353 HP.",
 * and notes in the narrator which members are out, so that later sentences can say what is lost and who is withdrawn. Each
 * sentence ends with a full stop.
 *
 * `text`, `room` and `*length` are as with gen1_next_line; GEN1_SENTENCE_ROOM is always enough. Returns 0, a code of
 * gen1_next_event, or GEN1_ERROR_SMALL_TEXT. If it returns a code, nothing has changed.
 */
uint8_t gen1_next_sentence(const uint8_t *log, size_t count, size_t *at, gen1_narrator *narrator, char *text, size_t room,
                           size_t *length);

/* ---- calculating ---- */

/*
 * Computes the damage of one hit by a move of `side` on the foe's active member, with both members as they are now, for each of
 * the factors 217 to 255 in this order (docs/MECHANICS.md, "Damage numbers" to "Factors").
 *
 * `move` is 1 to 165, and the member need not know it. If the damage before the factor is 0 or 1, all 39 numbers are 0 or 1.
 * Returns 0, or the first of these codes that applies, and then nothing has changed: GEN1_ERROR_SIDE, GEN1_ERROR_MOVE,
 * GEN1_ERROR_UNUSUAL, GEN1_ERROR_NOBODY_OUT, GEN1_ERROR_DIVISOR.
 */
uint8_t gen1_damage(const gen1_battle *battle, uint8_t side, uint8_t move, bool critical, uint16_t damages[39]);

/* The damage of one hit in HP for each of the factors 217 to 255, which are equally likely; or the reason why there is none. */
typedef struct gen1_damages {
    uint16_t numbers[39]; /* the damages, in rising order; zeros if there are none */
    uint8_t count;        /* how many there are: 39 or 0 */
    uint8_t code;         /* 0; or the reason why there are none: GEN1_ERROR_UNUSUAL or GEN1_ERROR_DIVISOR */
} gen1_damages;

/*
 * The odds of one use of a move by a member that acts now. Chances are exact counts: how many of the 256 values of a draw lead
 * to the result.
 *
 * Conditions that keep a member from acting at all, such as sleep or paralysis, are not counted. If Rage, Thrash or Petal Dance
 * continues, the hit test uses the kept accuracy. If Wrap, Bind, Clamp or Fire Spin continues, it deals its last damage again
 * without a test. A damage of 0 is a miss. A use with the usual damage therefore hits only if it passes the hit test
 * (`hit_draws`) and its damage is above 0; the damages of a usual or of a critical hit may all be 0.
 *
 * Counter depends on the last damage and on the foe's last picked move, as they are now. If the foe acts first, both change.
 */
typedef struct gen1_odds {
    gen1_damages usual;      /* the damage if the hit is not critical */
    gen1_damages critical;   /* the damage if the hit is critical */
    uint16_t critical_draws; /* 0 to 255: how many of 256 draws make the hit critical; 0 without the usual damage */
    uint16_t hit_draws;      /* 0 to 256: how many of 256 draws of the hit test make the use hit; 256 without a test */
    uint16_t least;          /* without the usual damage: the least damage; 0 if there is none */
    uint16_t most;           /* without the usual damage: the most damage; all from the least to the most are equally likely */
    uint8_t hits[6];         /* in how many of 8 cases a use that hits makes 0 to 5 hits; each hit deals the same damage */
    uint8_t reason;          /* why `hit_draws` is 0: one of GEN1_ODDS_FALLEN, ..; or GEN1_ODDS_CAN_HIT */
    uint8_t charges_first;   /* 1: the user would only charge now, and the odds are those of its strike; otherwise 0 */
} gen1_odds;

/* The first reason why a use cannot hit, or cannot work (docs/MECHANICS.md, "Hit test" to "Side effects"). */
enum {
    GEN1_ODDS_CAN_HIT = 0,            /* it can hit */
    GEN1_ODDS_FALLEN = 1,             /* the user or the foe has no HP */
    GEN1_ODDS_LEFT_OUT = 2,           /* the engine leaves the move out: Metronome, Mimic, Mirror Move, Transform */
    GEN1_ODDS_ALWAYS_FAILS = 3,       /* the move fails in every battle: Roar, Teleport, Whirlwind */
    GEN1_ODDS_IMMUNE = 4,             /* the move's type has no effect on a type of the foe */
    GEN1_ODDS_NO_DAMAGE = 5,          /* the damage is 0 after types */
    GEN1_ODDS_FAULT = 6,              /* the battle would end with a fault: a divisor of 0, or Psywave at level 1 */
    GEN1_ODDS_SLOWER = 7,             /* a one-hit move, and the user is slower than the foe */
    GEN1_ODDS_NOTHING_TO_COUNTER = 8, /* the last damage is 0, or the foe's picked move cannot be countered */
    GEN1_ODDS_NO_ENERGY = 9,          /* Bide has no stored damage to return */
    GEN1_ODDS_AWAKE = 10,             /* Dream Eater, and the foe is awake */
    GEN1_ODDS_INVULNERABLE = 11,      /* the foe has flown up or dug in */
    GEN1_ODDS_MIST = 12,              /* Mist guards the foe's stats */
    GEN1_ODDS_SUBSTITUTE = 13,        /* the foe's substitute blocks the move */
    GEN1_ODDS_HAS_STATUS = 14,        /* the foe already has a status */
    GEN1_ODDS_OWN_TYPE = 15,          /* the foe's type guards it: Poison, Grass, or Ground against Electric paralysis */
    GEN1_ODDS_CONFUSED = 16,          /* the foe is already confused */
    GEN1_ODDS_SEEDED = 17,            /* the foe is already seeded */
    GEN1_ODDS_DISABLED = 18,          /* one of the foe's moves is already disabled */
    GEN1_ODDS_NO_PP = 19,             /* Disable, and none of the foe's moves has PP */
    GEN1_ODDS_STAGE = 20,             /* the stage, or the stat, is at its limit */
    GEN1_ODDS_SLEEP_CLAUSE = 21,      /* the sleep clause: a member of the foe's side is already asleep */
    GEN1_ODDS_ALREADY_UP = 22,        /* the user already has the condition */
    GEN1_ODDS_HEALTH = 23             /* the user's HP: a loss of 0, 255 or 511 is not healed; a substitute needs a quarter */
};

/*
 * Computes the odds of a move of `side`, with both active members as they are now (docs/MECHANICS.md, "Critical hits" to "Hit
 * test", "Fixed damage and one-hit moves" and "Many hits").
 *
 * `move` is 1 to 165, and the member need not know it. Returns 0, or GEN1_ERROR_SIDE, GEN1_ERROR_MOVE or
 * GEN1_ERROR_NOBODY_OUT; then nothing has changed.
 */
uint8_t gen1_odds_now(const gen1_battle *battle, uint8_t side, uint8_t move, gen1_odds *odds);

/*
 * Computes the odds of a move between two members that have just been sent out at full HP; it needs no battle.
 *
 * Returns 0; or GEN1_ERROR_MOVE if `move` is not 1 to 165; or the error that gen1_new returns for two teams of one member,
 * `user` as team one and `foe` as team two. If it returns a code, nothing has changed.
 */
uint32_t gen1_odds_between(const gen1_member *user, const gen1_member *foe, uint8_t move, gen1_odds *odds);

/*
 * The odds of the action by which a side uses a move in the turn that begins, as exact counts of independent draws: the member acts
 * in `acts` of `acts_of` ways, and acts and hits in `hits` of `hits_of`. All ways are equally likely.
 *
 * What keeps the member from acting is counted as it is known when the turn begins: sleep, a freeze, the foe's trapping, recharging,
 * a disabled move, confusion and paralysis. What the foe does first is not counted, such as a flinch. A member that has to continue
 * another move does not act, and neither does one that has fallen, or whose foe has. A move that only charges in this turn does not
 * hit, and a damage of 0 is a miss.
 *
 * A trapping move (Wrap, Bind, Clamp, Fire Spin) holds a foe that its damage does not hurt, until it misses.
 */
typedef struct gen1_action_odds {
    uint64_t acts;        /* in how many ways the member acts */
    uint64_t acts_of;     /* 65,536: the pairs of a draw for confusion and one for paralysis */
    uint64_t hits;        /* in how many ways it acts and its move hits, or works */
    uint64_t hits_of;     /* 4,294,967,296: these pairs, each with a critical draw and a draw of the hit test */
    uint16_t side_effect; /* 0 to 256: how many of 256 draws give a hit its side effect; 0 if the foe is guarded; 256 if it is sure */
    uint16_t holds;       /* 0 to 256: how many of 256 draws of the hit test hold the foe, if the member acts; 0 for other moves */
    uint8_t zeros[4];     /* zeros */
} gen1_action_odds;

/*
 * Computes the odds of the action by which `side` uses a move, with both active members as they are now (docs/MECHANICS.md, "Gate",
 * "Hit test", "Side effects", "Going on").
 *
 * `move` is 1 to 165, and the member need not know it. The side effect is that of a hit after which the foe stands and its substitute
 * is not broken; the thaw of a frozen foe and Disable are none. Returns 0, or GEN1_ERROR_SIDE, GEN1_ERROR_MOVE or
 * GEN1_ERROR_NOBODY_OUT; then nothing has changed.
 */
uint8_t gen1_action_odds_now(const gen1_battle *battle, uint8_t side, uint8_t move, gen1_action_odds *odds);

/*
 * The chance that one use of a move knocks out the foe, or two uses in a row, for independent draws: in `once` of `once_of`
 * ways, and in `twice` of `twice_of`. All ways are equally likely.
 *
 * If the foe has a substitute, it is the chance to break the substitute. Both uses have the odds that gen1_odds_now returns, and
 * their damages add up; the second Super Fang halves the HP that are left. A trapping move that hits continues: the second use deals
 * the same damage again, without a test; one that is continuing is taken to continue. Nothing else that happens between the uses is
 * counted: no residual damage, no change of a stat, no recharging, and no fainting of the user.
 */
typedef struct gen1_chances {
    uint64_t once;             /* in how many ways the foe has no HP left after one use */
    uint64_t once_of;          /* the ways of one use: at most 20,447,232 */
    uint64_t twice;            /* in how many ways the foe has no HP left after two uses */
    uint64_t twice_of;         /* the ways of two uses: the square of `once_of` */
    uint8_t breaks_substitute; /* 1: the foe has a substitute, and the chances are those of breaking it; otherwise 0 */
    uint8_t zeros[7];          /* zeros */
} gen1_chances;

/*
 * Computes the chance that a move of `side` knocks out the foe's active member, with both as they are now (docs/MECHANICS.md,
 * "Landing", "Many hits").
 *
 * `move` is 1 to 165, and the member need not know it. The chance of a move that charges is that of its strike. Returns 0, or
 * GEN1_ERROR_SIDE, GEN1_ERROR_MOVE or GEN1_ERROR_NOBODY_OUT; then nothing has changed.
 */
uint8_t gen1_knock_out(const gen1_battle *battle, uint8_t side, uint8_t move, gen1_chances *chances);

/*
 * The change of the foe's HP between two uses of a move, if it has any left. For example, poison, a burn and Leech Seed each cost
 * a 16th of the maximum, rounded down, and at least 1 (docs/MECHANICS.md, "Residual damage").
 */
typedef struct gen1_hp_change {
    uint16_t gained; /* the HP that it gains first, up to its maximum */
    uint16_t lost;   /* the HP that it then loses */
} gen1_hp_change;

/* The changes of the foe's HP after the first use of a move, and after the second. */
typedef struct gen1_between {
    gen1_hp_change after_first;  /* after the first use */
    gen1_hp_change after_second; /* after the second use */
} gen1_between;

/* A 128-bit number: high * 2^64 + low. */
typedef struct gen1_wide {
    uint64_t low;  /* the lower 64 bits */
    uint64_t high; /* the upper 64 bits */
} gen1_wide;

/*
 * The exact chance that one use of a move knocks out the foe, or two or three in a row, as in gen1_chances, with the changes of the
 * foe's HP between the uses. A foe that loses its last HP between two uses is knocked out too. Against a substitute it is the chance
 * to break it, and nothing changes the substitute's HP between the uses.
 */
typedef struct gen1_three_chances {
    uint64_t once;             /* in how many ways the foe has no HP left after one use */
    uint64_t once_of;          /* the ways of one use: at most 20,447,232 */
    uint64_t twice;            /* in how many ways the foe has no HP left after two uses */
    uint64_t twice_of;         /* the ways of two uses: the square of `once_of` */
    gen1_wide thrice;          /* in how many ways the foe has no HP left after three uses */
    gen1_wide thrice_of;       /* the ways of three uses: the cube of `once_of` */
    uint8_t breaks_substitute; /* 1: the foe has a substitute, and the chances are those of breaking it; otherwise 0 */
    uint8_t zeros[7];          /* zeros */
} gen1_three_chances;

/*
 * Computes the chance that up to three uses of a move of `side` knock out the foe's active member, with both as they are now
 * (docs/MECHANICS.md, "Many hits", "Residual damage").
 *
 * `move` is 1 to 165, and the member need not know it. `between` may hold any numbers; zeros change no HP. Returns 0, or
 * GEN1_ERROR_SIDE, GEN1_ERROR_MOVE or GEN1_ERROR_NOBODY_OUT; then nothing has changed.
 */
uint8_t gen1_knock_out_in_three(const gen1_battle *battle, uint8_t side, uint8_t move, const gen1_between *between,
    gen1_three_chances *chances);

/*
 * Return the HP that the user of a move gains by its damage (Absorb, Mega Drain, Leech Life, Dream Eater), or loses by it (Take
 * Down, Double-Edge, Submission, Struggle): 0 for any other move, and if `move` is not 1 to 165 (docs/MECHANICS.md, "Recoil,
 * drain and explosion").
 *
 * `damage` is the HP that the foe lost, or that its substitute lost without breaking. The user's HP do not rise above its maximum.
 */
uint16_t gen1_drained(uint8_t move, uint16_t damage);
uint16_t gen1_recoil(uint8_t move, uint16_t damage);

/*
 * Returns whether a move takes the hit test when it is used (docs/MECHANICS.md, "Hit test"): 1, or 0 for moves that always fail
 * or only affect their user, and for a number that is not 1 to 165.
 */
uint8_t gen1_takes_hit_test(uint8_t move);

/* ---- many battles ---- */

/*
 * The alignment at which arrays of battles are fastest: each battle then fills six cache lines. No function requires it. Use
 * `_Alignas(GEN1_ALIGNMENT) gen1_battle battles[1024];`, or memory from aligned_alloc.
 */
#define GEN1_ALIGNMENT 64

/*
 * Writes the mask of one side in each of `count` battles, as gen1_offered returns it: masks[i] belongs to battles[i].
 *
 * Returns 0, or GEN1_ERROR_SIDE, or GEN1_ERROR_LENGTHS if `mask_count` is not `count`; then no mask is written.
 */
uint8_t gen1_offered_many(const gen1_battle *battles, size_t count, uint8_t side, uint16_t *masks, size_t mask_count);

/* An update of one of many battles. */
typedef struct gen1_batch_update {
    uint8_t one;    /* the choice of side 1 */
    uint8_t two;    /* the choice of side 2 */
    uint8_t result; /* becomes the value of gen1_result for the battle afterwards */
    uint8_t code;   /* becomes 0, GEN1_ERROR_OVER, GEN1_ERROR_NOT_OFFERED_ONE or GEN1_ERROR_NOT_OFFERED_TWO */
} gen1_batch_update;

/*
 * Plays one update of each of `count` battles, without logs: battles[i] by the choices in updates[i], to which it writes the
 * result and the code. A battle whose update is refused does not change; the other battles are still updated.
 *
 * Returns 0, or GEN1_ERROR_LENGTHS if `update_count` is not `count`; then nothing has changed.
 */
uint8_t gen1_update_many(gen1_battle *battles, size_t count, gen1_batch_update *updates, size_t update_count);

/*
 * Plays one random step of each of `count` battles, without logs. One call does the work of gen1_offered_many, a draw for each side,
 * and gen1_update_many. Each side takes one of the choices that it is offered, all equally likely.
 *
 * Each battle has its own generator, whose state is generators[i]. The other battles in the array do not matter for a battle:
 * threads may step parts of an array, and the results are those of stepping the whole array. Fill `generators` once with random
 * 64-bit numbers; each call replaces them. A draw is that of gen1_playout: the state becomes 6364136223846793005 times the state plus
 * 1442695040888963407, modulo 2 to the power of 64, and the draw is its upper 32 bits. A side with n choices, in the order of
 * gen1_choices, takes the one at index (draw modulo n). Side 1 draws before side 2, and a side with one choice draws too.
 *
 * updates[i] becomes the choices of battles[i], its result and its code, as gen1_update_many writes them. `*over` becomes the number
 * of battles that are over after the step.
 *
 * A battle that is over before the step draws nothing and doesn't change: its choices are GEN1_CHOICE_PASS, its code is
 * GEN1_ERROR_OVER. With starts it is replaced first: it becomes a copy of starts[i], draws ten numbers (draw modulo 256), which are
 * set as gen1_reseed does with index 0, and is then stepped. A battle that has ended can therefore be read until the next call, and
 * every call steps every battle. Without starts, `start_count` is 0, and `starts` may be NULL.
 *
 * Returns 0, or GEN1_ERROR_LENGTHS if `generator_count` or `update_count` is not `count`, or `start_count` is neither `count` nor 0;
 * then nothing has changed.
 */
uint8_t gen1_step_random_many(gen1_battle *battles, size_t count, const gen1_battle *starts, size_t start_count,
                              uint64_t *generators, size_t generator_count, gen1_batch_update *updates, size_t update_count,
                              size_t *over);

/* How gen1_playout plays. With weights of 0 alone, all offered choices are equally likely. */
typedef struct gen1_playout_options {
    uint64_t seed;        /* the state of the generator before its first draw */
    uint32_t rounds;      /* how many copies are played */
    uint32_t depth;       /* the number of updates after which a round is decided by the HP left; 0: rounds are played to their end */
    uint8_t weights[166]; /* of each move by its number, 1 to 164; [165], Struggle, is that of Move 0; [0] that of each switch */
    uint8_t reserved[2];  /* ignored */
} gen1_playout_options;

/* How playouts ended. The four numbers add up to `rounds`. */
typedef struct gen1_playouts {
    uint32_t wins_one; /* side 1 won, or is ahead */
    uint32_t wins_two; /* side 2 won, or is ahead */
    uint32_t ties;     /* neither side won or is ahead */
    uint32_t faults;   /* the battle had to stop: GEN1_OUTCOME_FAULT_ONE or GEN1_OUTCOME_FAULT_TWO */
} gen1_playouts;

/*
 * Plays copies of a battle with random numbers and random choices, to their end or to a depth, and writes to `*counts` how they
 * ended.
 *
 * The battle itself does not change. Copies of a battle that is over count as that battle ended. The same arguments give the
 * same counts.
 *
 * A round first draws the ten numbers of its copy, each (draw modulo 256), and sets them as gen1_reseed does with index 0. Rounds
 * are therefore independent, and none of them uses the numbers that the battle itself will draw. Then in each update each side
 * takes one of the choices that it is offered, side 1 before side 2.
 *
 * A side draws from the list of gen1_choices in which each choice is repeated as often as its weight says. If all its choices have
 * weight 0, each is in the list once. From a list of n it takes the choice at index (draw modulo n). A choice of weight 6 is
 * twice as likely as one of weight 3, and one of weight 0 is taken only if the others have 0 too. Move 0, by which a member
 * continues a move or uses Struggle, has the weight of Struggle. Pass is always the only choice.
 *
 * A round that has not ended after `depth` updates is decided by the HP that each side has left, as a share of the sum of its
 * members' maximum HP: the side with the larger share wins, and equal shares are a tie.
 *
 * The draws come from a generator that only this call uses. Its state has 64 bits and is `seed` at first. Each draw replaces the
 * state by 6364136223846793005 times the state plus 1442695040888963407, modulo 2 to the power of 64, and is the upper 32 bits
 * of the new state.
 *
 * Returns 0, or the code of the first test of gen1_load that the battle's bytes fail (GEN1_ERROR_LOAD_VERSION, ..); then
 * nothing is written.
 */
uint8_t gen1_playout(const gen1_battle *battle, const gen1_playout_options *options, gen1_playouts *counts);

/* ---- exact outcomes ---- */

/* A battle that an update can lead to, with its weight. */
typedef struct gen1_successor {
    gen1_battle battle; /* after the update; bytes 5 to 15, the numbers to draw, are as before the update */
    uint64_t low;       /* the low 64 bits of the weight */
    uint64_t high;      /* the high 64 bits */
} gen1_successor;

/* How gen1_outcomes lists outcomes. Zeros list all outcomes, and each damage separately. */
typedef struct gen1_outcome_options {
    uint32_t least;         /* draws are left out as soon as their probability is below least / 2^32; 0: none are */
    uint8_t damage_classes; /* the most classes of a damage roll, 1 to 39; 0: each damage is listed separately */
    uint8_t reserved[3];    /* ignored */
} gen1_outcome_options;

/* The list that gen1_outcomes wrote. */
typedef struct gen1_outcome_list {
    uint64_t low;       /* the low 64 bits of the sum of all weights and of the weight left out */
    uint64_t high;      /* the high 64 bits */
    uint64_t left_low;  /* the low 64 bits of the weight left out; 0 if `least` is 0 */
    uint64_t left_high; /* the high 64 bits */
    uint64_t count;     /* how many outcomes there are: at least 1, if nothing is left out */
} gen1_outcome_list;

#define GEN1_SUCCESSOR_SIZE 400 /* the size of a gen1_successor, for other languages; its alignment is at most 8 */

/*
 * Lists all battles that an update by a choice of each side can lead to, each once, with its exact probability: its weight
 * divided by the sum in `*list`. Both are whole numbers of up to 128 bits.
 *
 * The probabilities are exact for draws that are independent uniform bytes. A link battle draws other numbers
 * (docs/MECHANICS.md, "Link numbers"). If its seed is unknown, they are an approximation, off by about 0.01 in total variation;
 * if its seed is known, there is one outcome, that of gen1_update. The numbers to draw of `battle` are not used, and its outcomes
 * keep them: reseed an outcome before you play it further.
 *
 * The outcomes are written to the first places of `successors`, in no particular order. `table` is working memory of the call. It
 * needs at least as many places as there are outcomes; twice as many make the call faster. Most updates have fewer than 100
 * outcomes, and all that were met have fewer than 65,536.
 *
 * A search may want fewer outcomes. With `damage_classes` above 0, a damage roll has at most that many classes: the 39 factors
 * from 217 to 255 are divided into that many ranges, and the damages of one range are a class. The list has one damage near the
 * middle of each class, with the weight of the whole class. All damages that reach the HP of the target are one more class. No
 * class holds both damages that break a substitute and damages that don't. So the chance that the first hit of a move knocks out
 * or breaks a substitute stays exact, and so does everything other than damage rolls. Only what depends on the amount of damage
 * is that of the listed one: later hits of a move, recoil, residual damage. 0 lists each damage; numbers above 39 count as 39.
 *
 * With `least` above 0, a course of the update is left out as soon as its draws so far have a probability below `least` / 2^32
 * together. A weight is then that of the ways to its battle that are not left out, and the rest is in `left_low` and `left_high`
 * of the list: the weights and the weight left out add up exactly to the sum of the list. Each listed outcome has at least the
 * probability `least` / 2^32. An update without a draw always has its outcome; an update with draws may have none.
 *
 * Returns 0, or the first of these codes that applies, and then nothing has changed: GEN1_ERROR_OVER,
 * GEN1_ERROR_NOT_OFFERED_ONE, GEN1_ERROR_NOT_OFFERED_TWO. Otherwise it returns GEN1_ERROR_OUTCOMES or GEN1_ERROR_TABLE if that
 * array has too few places, or GEN1_ERROR_DRAWS. Then `*list` has not changed, and the content of both arrays is unspecified.
 */
uint8_t gen1_outcomes(const gen1_battle *battle, uint8_t one, uint8_t two, const gen1_outcome_options *options,
                      gen1_successor *successors, size_t capacity, uint32_t *table, size_t table_size, gen1_outcome_list *list);

/* Returns the probability of an outcome of a list, as a double near it. */
static inline double GEN1_PROBABILITY(const gen1_successor *successor, const gen1_outcome_list *list)
{
    const double high = 18446744073709551616.0; /* 2 to the power of 64 */
    return ((double)successor->high * high + (double)successor->low) / ((double)list->high * high + (double)list->low);
}

/* A draw of a way. Only the library reads and writes it. */
typedef struct gen1_draw {
    uint64_t num[2];   /* the numerator of the probability of the draws before it, the low 64 bits first */
    uint64_t whole[2]; /* the denominator */
    uint64_t rest[4];  /* the bytes that are still to be tried: a bit for each of 256 */
    uint16_t total;    /* how many bytes can be drawn */
    uint16_t count;    /* how many of them have the same effect as `byte` */
    uint16_t look[2];  /* how the byte is used: the parameters */
    uint8_t kind;      /* how the byte is used: the kind, 0 to 4 */
    uint8_t byte;      /* the byte that is drawn on the next way */
    uint8_t unused[6]; /* 0 */
} gen1_draw;

/*
 * A walk through the ways of an update. gen1_walk_begin makes it, and gen1_walk_next changes it. The caller owns it, and may
 * copy it: a copy continues from the same way.
 */
typedef struct gen1_walk {
    gen1_battle battle;     /* the battle before the update */
    gen1_draw draws[24];    /* the draws of the next way, as far as they are known, in the first places */
    uint8_t count;          /* how many there are, 0 to 24 */
    uint8_t one;            /* the choice of side 1 */
    uint8_t two;            /* the choice of side 2 */
    uint8_t damage_classes; /* as it was passed to gen1_walk_begin */
    uint8_t over;           /* 1 after the last way, else 0 */
    uint8_t unused[3];      /* 0 */
} gen1_walk;

#define GEN1_WALK_SIZE 2312 /* the size of a gen1_walk, for other languages; its alignment is at most 8 */

/* A way of an update: a battle that it can lead to, its exact probability, and its log. */
typedef struct gen1_way {
    gen1_battle battle;         /* after the update; bytes 5 to 15, the numbers to draw, are as before the update */
    uint64_t low;               /* the low 64 bits of the numerator of the probability */
    uint64_t high;              /* the high 64 bits */
    uint64_t whole_low;         /* the low 64 bits of the denominator */
    uint64_t whole_high;        /* the high 64 bits */
    uint64_t log_length;        /* 0 to 512: how many bytes of `log` belong to the update */
    uint8_t log[GEN1_LOG_ROOM]; /* the log of the update, followed by zeros */
} gen1_way;

#define GEN1_WAY_SIZE 936 /* the size of a gen1_way, for other languages; its alignment is at most 8 */

/*
 * Begins a walk through all ways of an update by a choice of each side. These are the outcomes of gen1_outcomes before equal
 * battles are merged, one by one, each with its log. Two ways may lead to equal battles by different events, such as a critical
 * hit and a usual hit that both knock out. A walk needs no arrays, and may be abandoned at any way. `damage_classes` is that of
 * gen1_outcome_options.
 *
 * Returns 0, or the first of these codes that applies, and then nothing has changed: GEN1_ERROR_OVER,
 * GEN1_ERROR_NOT_OFFERED_ONE, GEN1_ERROR_NOT_OFFERED_TWO.
 */
uint8_t gen1_walk_begin(const gen1_battle *battle, uint8_t one, uint8_t two, uint8_t damage_classes, gen1_walk *walk);

/*
 * Plays the next way of a walk, and writes it to `*way`. Ways exclude each other, and their probabilities sum to 1. They are
 * exact for draws that are independent uniform bytes, as are those of gen1_outcomes. An update has at least one way, and no way
 * is left out.
 *
 * Returns 0, or a code, and then nothing has changed: GEN1_ERROR_WALK_END after the last way, or GEN1_ERROR_DRAWS. If the
 * bytes are not a walk, it returns one of these three, and the way has no meaning.
 */
uint8_t gen1_walk_next(gen1_walk *walk, gen1_way *way);

/* Returns the probability of a way, as a double near it. */
static inline double GEN1_WAY_PROBABILITY(const gen1_way *way)
{
    const double high = 18446744073709551616.0; /* 2 to the power of 64 */
    return ((double)way->high * high + (double)way->low) / ((double)way->whole_high * high + (double)way->whole_low);
}

/* ---- random teams ---- */

/* How many sample teams there are: those of examples/teams, in the order of their names. */
#define GEN1_SAMPLE_TEAMS 12

/*
 * Overwrites `*team` with a random team of `count` members of different species (docs/MECHANICS.md, "Random teams"): members of the
 * sample teams if `from_all` is 0, else any species with any moves. gen1_new accepts it. The same arguments give the same team.
 *
 * Returns 0; or GEN1_ERROR_TEAM_EMPTY or GEN1_ERROR_TEAM_TOO_LONG if `count` is not 1 to 6. Then nothing has changed.
 */
uint8_t gen1_random_team(uint64_t seed, uint8_t count, uint8_t from_all, gen1_team *team);

/*
 * Overwrites `*team` with a sample team by its number, 1 to GEN1_SAMPLE_TEAMS. Returns 0, or GEN1_ERROR_UNKNOWN for another number.
 * Then nothing has changed.
 */
uint8_t gen1_sample_team(uint8_t number, gen1_team *team);

/* ---- teams as text ---- */

/* The place of an error in the text of a team, and the form that was expected there. */
typedef struct gen1_text_fault {
    size_t line;   /* in a text: the line, from 1; 0 if it is not about one line */
    size_t member; /* in a packed line, and with GEN1_ERROR_TEXT_TEAM: the member, from 1; 0 if it is not about one member */
    size_t field;  /* in a packed line: the field of the member, 1 to 12; 0 if it is not about one field */
    uint8_t code;  /* the expected form: GEN1_ERROR_TEXT_SPECIES to GEN1_ERROR_TEXT_TEAM */
    uint8_t rule;  /* with GEN1_ERROR_TEXT_TEAM: why the members are not a team, GEN1_ERROR_TEAM_EMPTY to GEN1_ERROR_PP_UPS;
                      otherwise 0 */
    uint8_t reserved[6]; /* 0 */
} gen1_text_fault;

/*
 * Reads a team from a text of `count` bytes in the export format of Pokemon Showdown's team builder (docs/TEAM_TEXT.md, "Export
 * text").
 *
 * A member is a first line with the species, then lines such as "Level: 50", "EVs: 252 HP / 4 Atk", "IVs: 0 Atk" and "- Body
 * Slam". An empty line ends it. The defaults are level 100, all DVs 15 and all experience 63,504. Each move has three PP
 * ups. The text needs no NUL.
 *
 * Returns 0: `*team` is the team, which gen1_new accepts, with zeros after the last member, and `*fault` has not changed.
 * Otherwise it returns the code of the first error, `*fault` says where, and `*team` has not changed.
 */
uint8_t gen1_team_from_text(const char *text, size_t count, gen1_team *team, gen1_text_fault *fault);

/*
 * Reads a team like gen1_team_from_text, from a packed line of the team builder: members separated by `]`, and the twelve
 * fields of a member by `|` (docs/TEAM_TEXT.md, "Packed line").
 */
uint8_t gen1_team_from_packed(const char *text, size_t count, gen1_team *team, gen1_text_fault *fault);

/* The sizes of buffers that hold any text of gen1_team_to_text and of gen1_team_to_packed, and its NUL. */
#define GEN1_TEAM_TEXT_ROOM 1408
#define GEN1_TEAM_PACKED_ROOM 832

/*
 * Write a team in the export format of Pokemon Showdown's team builder, and as its packed line with a line feed
 * (docs/TEAM_TEXT.md, "Writing"). gen1_team_from_text and gen1_team_from_packed read a team with the same stats, moves and PP.
 *
 * The text and a NUL are written to the beginning of `text`, whose size is `room`; the rest of `text` does not change. `*length`
 * becomes the number of bytes before the NUL.
 *
 * Return 0; or a code of the team as gen1_new does, or GEN1_ERROR_UNWRITABLE, plus 256 times the place of the member, which
 * GEN1_CODE_OF and GEN1_PLACE_OF take apart; or GEN1_ERROR_SMALL_TEXT if the text and its NUL do not fit. If they return a code,
 * nothing has changed.
 */
uint32_t gen1_team_to_text(const gen1_team *team, char *text, size_t room, size_t *length);
uint32_t gen1_team_to_packed(const gen1_team *team, char *text, size_t room, size_t *length);

/* ---- naming ---- */

/* The sizes of buffers that hold any name, and any words of gen1_choice_words, with their NUL. */
#define GEN1_NAME_ROOM 16
#define GEN1_WORDS_ROOM 32

/*
 * Functions that write a text write it and a NUL to the beginning of `text`, whose size is `room`; the rest of `text` does not
 * change. `*length` becomes the number of bytes before the NUL. They return 0; GEN1_ERROR_UNKNOWN if nothing has this number;
 * or GEN1_ERROR_SMALL_TEXT if the text and its NUL do not fit. If they return a code, nothing has changed.
 */

/* Returns the version of the library: 65,536 * major + 256 * minor + patch. */
uint32_t gen1_version(void);

/*
 * Returns the origin of the library, as a NUL-terminated string that is never freed:
 *
 *   - "proved, logic HEX, sources sha256 HEX": proved and built by the Rattle kit
 *   - "plain, rustc VERSION, sources sha256 HEX": built by rustc, from the same sources without their contracts
 *   - "unknown": neither is known
 *
 * The checksum covers the files of crates/ that a proof reads. A part that isn't known is "unknown". A library that was optimized
 * with a profile of battles says "with a profile" after "proved," or after rustc's VERSION.
 */
const char *gen1_build(void);

/*
 * Writes the name of a species (1 to 151), a move (1 to 165) or a type (0 to 14), as in docs/TABLES.md: "Mr. Mime",
 * "Double-Edge", "Psychic". A name is at most 14 bytes of ASCII.
 */
uint8_t gen1_species_name(uint8_t species, char *text, size_t room, size_t *length);
uint8_t gen1_move_name(uint8_t move, char *text, size_t room, size_t *length);
uint8_t gen1_type_name(uint8_t type, char *text, size_t room, size_t *length);

/*
 * Return the species or move that the `count` bytes of `text` name, or 0 if there is none.
 *
 * Only letters and digits are compared, ignoring case (docs/TEAM_TEXT.md, "Names"): "mrmime" is 122. Every name that
 * gen1_species_name and gen1_move_name write is found. Two moves are also found by their names in later games, "Vise Grip" and
 * "Hi Jump Kick".
 */
uint8_t gen1_species_from_name(const char *text, size_t count);
uint8_t gen1_move_from_name(const char *text, size_t count);

/* The base stats and types of a species (docs/TABLES.md, "Species"). A species with one type has it twice. */
typedef struct gen1_base {
    uint8_t stats[5]; /* HP, Attack, Defense, Speed, Special: 5 to 250 */
    uint8_t types[2]; /* 0 to 14 */
} gen1_base;

/*
 * Writes the base stats and types of a species. Returns 0, or GEN1_ERROR_UNKNOWN if it is not 1 to 151; then `*base` has not
 * changed.
 */
uint8_t gen1_species_stats(uint8_t species, gen1_base *base);

/* A move (docs/TABLES.md, "Moves"). */
typedef struct gen1_move {
    uint8_t type;     /* 0 to 14 */
    uint8_t power;    /* 0 to 170. 1 if the damage does not depend on the power: one-hit moves, Counter, Super Fang, Seismic
                         Toss, Sonic Boom, Dragon Rage, Psywave. 0 for moves without damage, and for Night Shade and Bide */
    uint8_t accuracy; /* 0 to 255: the percentage in docs/TABLES.md times 255, divided by 100, rounded down. At unchanged stages
                         a draw below it hits */
    uint8_t pp;       /* 1 to 40: without PP ups */
    uint8_t effect;   /* GEN1_EFFECT_DAMAGE_ONLY to GEN1_EFFECT_STAT_DOWN */
    int8_t priority;  /* 1 for Quick Attack, which comes before any other move; -1 for Counter, which comes after any; else 0 */
    uint8_t high_critical; /* 1 for the four moves that are often critical (docs/MECHANICS.md, "Critical hits"), else 0 */
} gen1_move;

/* Writes the data of a move. Returns 0, or GEN1_ERROR_UNKNOWN if it is not 1 to 165; then `*row` has not changed. */
uint8_t gen1_move_data(uint8_t move, gen1_move *row);

/*
 * Writes to `*tenths` the factor, in tenths, of the damage of a move of one type to a foe of one type: 20, 10, 5 or 0
 * (docs/TABLES.md, "Type rows"). For a foe of two different types both factors apply, one after the other.
 *
 * Returns 0, or GEN1_ERROR_UNKNOWN if a type is not 0 to 14; then `*tenths` has not changed.
 */
uint8_t gen1_effectiveness(uint8_t attack_type, uint8_t foe_type, uint8_t *tenths);

/*
 * Writes the stats of a member without a battle: its maximum HP, 11 to 999, and its own Attack, Defense, Speed and Special, 5
 * to 999 (docs/MECHANICS.md, "Stats").
 *
 * Returns 0, or the code of the error that gen1_new returns for a team of this member, GEN1_ERROR_LEVEL to GEN1_ERROR_MOVE; then
 * `stats` has not changed.
 */
uint8_t gen1_member_stats(const gen1_member *member, uint16_t stats[5]);

/* ---- looking ---- */

/* A member, as it is now. If a side has no member at a place, all fields are 0. */
typedef struct gen1_member_state {
    uint8_t species;    /* 1 to 151 */
    uint8_t level;      /* 1 to 100 */
    uint8_t status;     /* GEN1_STATUS_NONE to GEN1_STATUS_PARALYSIS */
    uint8_t sleep;      /* turns of sleep left, 1 to 7; 0 if not asleep */
    uint8_t marked;     /* 1 if the foe's move put it to sleep under the sleep clause; else 0 */
    uint8_t moves[4];   /* 1 to 164; 0 in a slot without a move */
    uint8_t pp[4];      /* 0 to 63; 0 in a slot without a move */
    uint16_t hp;        /* 0 to max_hp */
    uint16_t max_hp;    /* 11 to 999 */
    uint16_t stats[4];  /* 5 to 999: its own Attack, Defense, Speed and Special, without stages and penalties */
} gen1_member_state;

/* The active member of a side. Before the first update there is none, and all fields are 0. */
typedef struct gen1_active_state {
    uint32_t conditions;    /* GEN1_CONDITION_.., added up for all that are on */
    uint16_t stats[4];      /* 1 to 999: Attack, Defense, Speed and Special with stages and penalties */
    uint16_t energy;        /* Bide: the stored damage, 0 to 65,535; else 0 */
    uint8_t place;          /* 1 to 6: its place in the team */
    uint8_t types[2];       /* 0 to 14; they may differ from the species' types */
    uint8_t stages[6];      /* 0 to 12, 6 if unchanged: Attack, Defense, Speed, Special, accuracy, evasion */
    uint8_t current_move;   /* the move that was used last: 0 none, 1 to 4 a slot, 5 Struggle */
    uint8_t picked_move;    /* the move that was picked last, likewise */
    uint8_t kept_accuracy;  /* Thrash and Rage: the kept accuracy, 1 to 255; else 0 */
    uint8_t substitute;     /* HP of the Substitute, 0 to 249; 0 without one */
    uint8_t confusion;      /* turns of confusion left, 1 to 5; 0 if not confused */
    uint8_t disabled_slot;  /* the slot that Disable blocks, 1 to 4; else 0 */
    uint8_t disabled_turns; /* turns of Disable left, 1 to 8; else 0 */
    uint8_t bad_poison;     /* the counter of Toxic, 0 to 64; 0 without it */
    uint8_t turns;          /* turns left of Bide or Thrash (1 to 3) or trapping (0 to 4), at most one of which is on; else 0 */
} gen1_active_state;

/* A side: its members, and the state that lasts only while a member is active. */
typedef struct gen1_side_state {
    gen1_member_state members[6]; /* the member at place p is members[p - 1] */
    gen1_active_state active;     /* the active member */
} gen1_side_state;

/* All that the 384 bytes of a battle represent (docs/LAYOUT.md). */
typedef struct gen1_state {
    gen1_side_state sides[2]; /* side 1 and side 2 */
    uint16_t turn;            /* 0 before the first update, then 1 up to the limit */
    uint16_t limit;           /* the last turn, 1 to 9,999 */
    uint16_t last_damage;     /* one number for both sides, 0 to 65,535 */
    uint8_t rules;            /* GEN1_SLEEP_CLAUSE and GEN1_FREEZE_CLAUSE, added up */
    uint8_t outcome;          /* GEN1_OUTCOME_ONGOING to GEN1_OUTCOME_FAULT_TWO */
    uint8_t requests[2];      /* GEN1_REQUEST_NOTHING to GEN1_REQUEST_SWITCH, of side 1 and side 2 */
    uint8_t index;            /* the index of the link number that is drawn next, 0 to 8 */
    uint8_t numbers[10];      /* the nine link numbers in use, then the tenth seed byte, which is never drawn */
} gen1_state;

/*
 * Writes the state that a battle's bytes represent to `*state`, every field of it. For bytes that aren't a battle, `rules`,
 * `outcome`, `requests`, `index` and `numbers` are copied as they are, and each `status` is 0 to 5.
 */
void gen1_get_state(const gen1_battle *battle, gen1_state *state);

/* The field of a state that is wrong. A value from `low` to `high` breaks the field's other rule, which its code gives. */
typedef struct gen1_state_fault {
    uint32_t value; /* the value of the field */
    uint32_t low;   /* the least valid value */
    uint32_t high;  /* the greatest valid value */
    uint8_t field;  /* GEN1_FIELD_UNNAMED to GEN1_FIELD_CURRENT_STAT */
    uint8_t side;   /* 1 or 2; 0 for a field of the whole battle */
    uint8_t place;  /* of a member, 1 to 6; 0 for a field of an active member or of the whole battle */
    uint8_t index;  /* which one, if the state has several; otherwise 0 */
} gen1_state_fault;

enum {
    GEN1_FIELD_UNNAMED = 0,          /* no fault has it */
    GEN1_FIELD_LIMIT = 1,            /* the turn limit */
    GEN1_FIELD_TURN = 2,             /* the turn */
    GEN1_FIELD_INDEX = 3,            /* the index of the next link number */
    GEN1_FIELD_OUTCOME = 4,          /* the outcome. From 0 to 5 it does not fit the living members */
    GEN1_FIELD_RULES = 5,            /* the rules */
    GEN1_FIELD_REQUEST = 6,          /* the request of a side */
    GEN1_FIELD_SPECIES = 7,          /* 0 only in a place after the last member */
    GEN1_FIELD_LEVEL = 8,
    GEN1_FIELD_MAX_HP = 9,
    GEN1_FIELD_HP = 10,              /* at least 1 for the first member at turn 0 */
    GEN1_FIELD_OWN_STAT = 11,        /* `index` is 1 Attack, 2 Defense, 3 Speed, 4 Special */
    GEN1_FIELD_STATUS = 12,          /* 0 for a member without HP */
    GEN1_FIELD_SLEEP = 13,
    GEN1_FIELD_MARKED = 14,
    GEN1_FIELD_MOVE = 15,            /* `index` is the slot. From `low` to `high` no member knows it, or an earlier slot has it */
    GEN1_FIELD_PP = 16,              /* `index` is the slot */
    GEN1_FIELD_PLACE = 17,
    GEN1_FIELD_TYPE = 18,            /* `index` is 1 or 2 */
    GEN1_FIELD_STAGE = 19,           /* `index` is 1 Attack to 4 Special, 5 accuracy, 6 evasion */
    GEN1_FIELD_CONDITIONS = 20,      /* the sum of the conditions */
    GEN1_FIELD_SUBSTITUTE = 21,
    GEN1_FIELD_CONFUSION = 22,
    GEN1_FIELD_DISABLED_SLOT = 23,
    GEN1_FIELD_DISABLED_TURNS = 24,
    GEN1_FIELD_BAD_POISON = 25,
    GEN1_FIELD_TURNS = 26,
    GEN1_FIELD_ENERGY = 27,
    GEN1_FIELD_KEPT_ACCURACY = 28,
    GEN1_FIELD_CURRENT_MOVE = 29,    /* From 0 to 5 the slot holds no move */
    GEN1_FIELD_PICKED_MOVE = 30,     /* likewise */
    GEN1_FIELD_TIED_CONDITION = 31,  /* `index` is the number, from 0, of a bit that is set and does not belong to the current move */
    GEN1_FIELD_CURRENT_STAT = 32     /* `index` is 1 to 4. From `low` to `high` no number of penalties gives it */
};

/*
 * Creates a battle from a state, and overwrites `*battle` with it. It accepts every state that gen1_get_state writes, and gives the
 * same 384 bytes. It also accepts every other state whose bytes gen1_load accepts.
 *
 * If the four `stats` of an active member are all 0, they are computed from its own stats and its stages, with one penalty for a burn
 * or a paralysis, as if it had just been sent out.
 *
 * Returns 0, or GEN1_ERROR_STATE; then `*battle` has not changed, and `*fault` has the first field that is wrong. The fields are tested
 * in this order: of the whole battle; of the members of side 1 and side 2; of the active members; their current stats; then outcome,
 * requests and turn together.
 */
uint8_t gen1_set_state(gen1_battle *battle, const gen1_state *state, gen1_state_fault *fault);

/*
 * Returns the kind of a choice: GEN1_KIND_PASS, GEN1_KIND_MOVE, GEN1_KIND_SWITCH, or GEN1_KIND_NONE if it isn't a
 * choice.
 */
uint8_t gen1_choice_kind(uint8_t choice);

/*
 * Returns the slot of a move, 0 to 4, or the place of a switch, 1 to 6; 0 for GEN1_CHOICE_PASS and for a byte that isn't a
 * choice.
 */
uint8_t gen1_choice_slot(uint8_t choice);

/*
 * Writes a choice of a side in words: "pass", "move 2 Body Slam", "move 0" (if no slot can be chosen), "switch 3 Gengar".
 *
 * The choice need not be offered. The words have at most 21 bytes, and are written like a name. Returns 0, or the first of these
 * codes that applies: GEN1_ERROR_SIDE, GEN1_ERROR_CHOICE, GEN1_ERROR_NOBODY, GEN1_ERROR_SMALL_TEXT.
 */
uint8_t gen1_choice_words(const gen1_battle *battle, uint8_t side, uint8_t choice, char *text, size_t room, size_t *length);

/*
 * Reads a choice of a side from words of `count` bytes, and writes its byte to `*choice`. Only letters and digits count, in either
 * case. The words need no NUL.
 *
 *   - "pass", "move 0" to "move 4", "switch 1" to "switch 6": this choice, whether it is offered or not. Updates and rooms test
 *     that; so does a comparison with gen1_choices.
 *   - "Body Slam" or "move Body Slam", "switch Gengar": the only offered choice that has the name. Move 0 has each move that the
 *     member knows, and Struggle.
 *   - "move 2 Body Slam", "switch 3 Gengar", the words of gen1_choice_words: this choice, if it is offered and has the name.
 *
 * Returns 0, or a code, and then nothing has changed: GEN1_ERROR_SIDE; GEN1_ERROR_WORDS for any other words, or an unknown name;
 * GEN1_ERROR_NOT_OFFERED if no offered choice has the name; GEN1_ERROR_AMBIGUOUS if two or more have it, as two members of one
 * species do. Names that are near an unknown one can be found by comparison with those of gen1_move_name and gen1_species_name.
 */
uint8_t gen1_choice_from_words(const gen1_battle *battle, uint8_t side, const char *text, size_t count, uint8_t *choice);

/* ---- searching ---- */

/*
 * Replaces the numbers that a battle draws; nothing else of the battle changes.
 *
 * `seed` is ten bytes with any values, of which nine are drawn in turn. `index`, 0 to 8, is the index of the byte that is drawn
 * next (docs/MECHANICS.md, "Link numbers").
 *
 * A copy of a battle holds the numbers that the battle itself will draw. A search that plays such copies sees the future, which
 * no player can: reseed each copy with your own bytes before you play it.
 *
 * Returns 0, or GEN1_ERROR_INDEX if `index` is above 8; then nothing has changed.
 */
uint8_t gen1_reseed(gen1_battle *battle, const uint8_t seed[10], uint8_t index);

/* ---- rooms ---- */

/*
 * A battle whose two players submit their choices separately (docs/MECHANICS.md, "Rooms"). The room keeps the first choice
 * until the other one is submitted; then it updates the battle.
 *
 * The caller owns a room, and may copy and store it. To make one, set `battle` by gen1_new or gen1_load and call
 * gen1_room_begin, which writes all other fields. From then on change it only by gen1_room_submit and gen1_room_forfeit, and its
 * battle only by gen1_reseed. A host calls gen1_reseed(&room.battle, seed, 0) before each pair, with bytes of the operating
 * system's source: nine draws in a row give all that follow. A choice that the room keeps stays.
 */
typedef struct gen1_room {
    gen1_battle battle;         /* the battle as it is now; before gen1_room_begin, the one to make a room of */
    uint32_t number;            /* the number of the current pair of choices: how many pairs have ended */
    uint16_t log_length;        /* 0 to 512: how many bytes of `log` belong to the last pair that ended */
    uint8_t chosen[2];          /* the choices of side 1 and side 2 for the current pair, GEN1_DUE if not submitted; never show
                                   them to the players */
    uint8_t forfeit;            /* the side that has forfeited, 1 or 2; 0 if neither has */
    uint8_t unused[3];          /* 0 */
    uint8_t log[GEN1_LOG_ROOM]; /* the log of the last pair that ended; before that, of the start, if the room played it;
                                   never show it to the players */
} gen1_room;

#define GEN1_ROOM_SIZE 908 /* the size of a gen1_room, for other languages; its alignment is 4 */
#define GEN1_DUE 255       /* a choice that has not been submitted */

/*
 * Makes a room of the battle in `room->battle`. If the battle is before its first update, that update is played at once. The
 * log is cleared beyond `log_length`, so that all bytes of a room are written.
 */
void gen1_room_begin(gen1_room *room);

/*
 * Lists the choices that a side may submit for the current pair, as gen1_choices does. There are none if its choice has been
 * submitted, the battle is over, or a side has forfeited. For a side without a request the room itself submits GEN1_CHOICE_PASS.
 *
 * Returns how many there are, 0 to 9; 0 if `side` is neither 1 nor 2.
 */
uint8_t gen1_room_choices(const gen1_room *room, uint8_t side, uint8_t choices[9]);

/*
 * Submits a choice of a side for the pair with the given number.
 *
 * Returns 0 if the room accepts the choice. Once both choices have been submitted, the battle is updated, `log` becomes the log
 * of the update, and `number` rises by one. Otherwise it returns the first of these codes that applies, and nothing has changed:
 * GEN1_ERROR_SIDE, GEN1_ERROR_OVER (also if a side has forfeited), GEN1_ERROR_STALE, GEN1_ERROR_CHOSEN, GEN1_ERROR_NOT_OFFERED.
 *
 * Until the pair has ended, no result that either player gets depends on which of the offered choices the other player made.
 *
 * The room keeps only the log of the last pair. It is the host's: send a side what gen1_tell makes of it. A caller that wants
 * the log of the whole battle appends the room's log after gen1_room_begin, and each time that `number` has risen:
 *
 *     uint32_t before = room.number;
 *     if (gen1_room_submit(&room, side, number, choice) == 0 && room.number != before) {
 *         memcpy(all + length, room.log, room.log_length);
 *         length += room.log_length;
 *     }
 */
uint8_t gen1_room_submit(gen1_room *room, uint8_t side, uint32_t number, uint8_t choice);

/*
 * Ends the current pair by a forfeit of a side: the other side wins. Choices that were submitted for this pair are discarded.
 *
 * Returns 0; `log` is then the single event GEN1_EVENT_WIN, `number` has risen by one, `forfeit` is the side, and every later
 * submission gets GEN1_ERROR_OVER. `battle` does not change: its bytes cannot represent a win while the loser has members left.
 * Otherwise it returns GEN1_ERROR_SIDE, or GEN1_ERROR_OVER if the battle is over or a side has forfeited, and nothing has
 * changed.
 */
uint8_t gen1_room_forfeit(gen1_room *room, uint8_t side);

/*
 * Returns the outcome of the room and the request to each side, as gen1_result does for its battle. After a forfeit the outcome
 * is the other side's win, and both requests are GEN1_REQUEST_NOTHING.
 */
uint8_t gen1_room_result(const gen1_room *room);

/* ---- watching ---- */

/* What a spectator sees of a member. */
typedef struct gen1_shown_member {
    uint16_t hp;      /* 0 to 999; its maximum until it first comes out */
    uint8_t status;   /* GEN1_STATUS_NONE to GEN1_STATUS_PARALYSIS */
    uint8_t reserved; /* 0 */
} gen1_shown_member;

/* What a spectator sees of a side. All fields from `stages` on belong to the active member. */
typedef struct gen1_shown_side {
    gen1_shown_member members[6]; /* the member at place p is members[p - 1] */
    uint8_t count;                /* how many members there are, 1 to 6 */
    uint8_t place;                /* the place of the active member, 1 to 6; 0 before the first comes out */
    uint8_t stages[6];            /* 0 to 12, 6 if unchanged: Attack, Defense, Speed, Special, accuracy, evasion */
    uint8_t substitute;           /* 1 if it has a Substitute, else 0 */
    uint8_t confused;             /* 1 if it is confused, else 0 */
    uint8_t light_screen;         /* 1 if Light Screen is up, else 0 */
    uint8_t reflect;              /* 1 if Reflect is up, else 0 */
} gen1_shown_side;

/*
 * The view of a spectator, who knows both teams and the log of every update so far, and nothing else (docs/MECHANICS.md,
 * "Spectator's view"). It contains no seed, no choices and no hidden counters.
 *
 * The caller owns it, like a battle. `held` keeps the bytes of an incomplete event.
 */
typedef struct gen1_spectator {
    gen1_shown_side sides[2]; /* side 1 and side 2 */
    uint16_t turn;            /* 0 before the first turn, then 1 up to the limit */
    uint8_t outcome;          /* GEN1_OUTCOME_ONGOING to GEN1_OUTCOME_FAULT_TWO */
    uint8_t held_count;       /* 0 to 9: how many bytes of `held` are in use */
    uint8_t held[10];         /* the bytes of an incomplete event */
} gen1_spectator;

#define GEN1_SPECTATOR_SIZE 86 /* the size of a gen1_spectator, for other languages; its alignment is 2 */

/*
 * Sets a spectator to what is known before a battle of two teams. Returns 0, or the error of a team as gen1_new returns it; then
 * nothing has changed.
 */
uint32_t gen1_spectator_begin(gen1_spectator *spectator, const gen1_team *one, const gen1_team *two);

/*
 * Feeds a spectator the next `count` bytes of the battle's log. The log may be cut anywhere, even within an event: an event
 * counts as soon as its last byte has been fed.
 *
 * Returns 0; or GEN1_ERROR_LOG_TAG or GEN1_ERROR_LOG_FIELD if these bytes, after the held ones, are not part of a log. Then
 * nothing has changed, and none of the bytes has been used. With 0, whatever the bytes of the spectator were, its counts fit its
 * arrays, with zeros after them, and stages, flags and outcome are in their ranges.
 */
uint8_t gen1_spectator_feed(gen1_spectator *spectator, const uint8_t *log, size_t count);

/* ---- players ---- */

/*
 * The knowledge that one side may have (docs/MECHANICS.md, "Player's view"). The host of a battle keeps the battle and a teller for
 * each side. It passes three things to a side: the bytes of gen1_tell, the struct of gen1_get_own_side, and the mask of the side's
 * choices. A player is computed from these and from its own team, and from nothing else. The caller owns all structs.
 */

/* A move that a member was seen to prepare or to use. */
typedef struct gen1_seen_move {
    uint8_t id;   /* 1 to 165; 0 in a free slot */
    uint8_t uses; /* 0 to 255, where 255 means 255 or more; what may be going on, without PP, is not counted (docs/MECHANICS.md) */
} gen1_seen_move;

/* A member as the log last showed it. If it has not appeared, all fields are 0. */
typedef struct gen1_seen {
    uint16_t hp;             /* 0 to max */
    uint16_t max;            /* 11 to 999 */
    uint8_t species;         /* 1 to 151 */
    uint8_t level;           /* 1 to 100 */
    uint8_t status;          /* GEN1_STATUS_NONE to GEN1_STATUS_PARALYSIS */
    gen1_seen_move moves[5]; /* in the order in which they were first seen */
    uint8_t asleep_by;       /* GEN1_ASLEEP_BY_MOVE or GEN1_ASLEEP_BY_REST; 0 if it is awake, or 3 from its Rest on until it
                                falls asleep or either side uses another move */
    uint8_t slept;           /* how many turns it has slept so far: 0 to 6, by Rest 0 or 1 */
    uint8_t unused;          /* 0 */
} gen1_seen;

/* What put a member to sleep. */
enum {
    GEN1_ASLEEP_BY_MOVE = 1, /* a move of the foe */
    GEN1_ASLEEP_BY_REST      /* its own Rest */
};

/* The conditions of the active member that the log has announced and not ended: 1, else 0; and the counter of one. */
typedef struct gen1_announced {
    uint8_t substitute;   /* Substitute */
    uint8_t confused;     /* confusion */
    uint8_t mist;         /* Mist */
    uint8_t focus_energy; /* Focus Energy */
    uint8_t light_screen; /* Light Screen */
    uint8_t reflect;      /* Reflect */
    uint8_t seeded;       /* Leech Seed */
    uint8_t toxic;        /* its poison is that of Toxic */
    uint8_t toxic_count;  /* the counter of that poison, 0 to 64; its next damage is multiplied by one more */
    uint8_t disabled;     /* Disable, of one of its moves */
    uint8_t rage;         /* Rage */
    uint8_t bide;         /* Bide */
    uint8_t charging;     /* it is charging `last_move`, and uses it in its next action */
    uint8_t recharging;   /* its next action is to recharge */
} gen1_announced;

/* The public information about a side. All fields from `announced` on belong to the active member. */
typedef struct gen1_public_side {
    gen1_seen members[6];     /* the player's own members by place, the foe's in the order in which they appeared */
    gen1_announced announced; /* its conditions */
    uint8_t stages[6];        /* 0 to 12, 6 if unchanged: Attack, Defense, Speed, Special, accuracy, evasion */
    uint8_t place;            /* of the active member, 1 to 6; 0 before the first comes out */
    uint8_t first_type;       /* 0 to 14 */
    uint8_t second_type;      /* 0 to 14; the first again for a member of one type */
    uint8_t last_move;        /* the move that it used or prepared last, 1 to 165; 0 if none since it came out */
    uint8_t invulnerable;     /* 1 if Fly or Dig has taken it out of reach, which may outlast the move; else 0 */
    uint8_t unused;           /* 0 */
} gen1_public_side;

/* What the events of a battle make public. */
typedef struct gen1_public {
    gen1_public_side sides[2]; /* side 1 and side 2 */
    uint16_t turn;             /* 0 before the first turn */
    uint8_t outcome;           /* as in gen1_spectator */
    uint8_t may_hit_itself;    /* the side, 1 or 2, whose confused member has hit itself behind its own Substitute, unless the
                                  next event is its act; else 0 */
} gen1_public;

/* A member of the player's own side; zeros if there is none. */
typedef struct gen1_own_member {
    uint8_t species;   /* 1 to 151 */
    uint8_t level;     /* 1 to 100 */
    uint8_t status;    /* GEN1_STATUS_NONE to GEN1_STATUS_PARALYSIS; the turns of sleep are not shown */
    uint8_t unused;    /* 0 */
    uint8_t moves[4];  /* by slot; 0 in an empty slot */
    uint8_t pp[4];     /* by slot, 0 to 63 */
    uint16_t hp;       /* 0 to its maximum */
    uint16_t max_hp;   /* 11 to 999 */
    uint16_t stats[4]; /* its own Attack, Defense, Speed and Special, 5 to 999 */
} gen1_own_member;

/*
 * A side as it is shown to its own player after each update (docs/MECHANICS.md, "What a side is shown of itself"). Only `held`
 * depends on the foe. Before the first update no member is active, and the fields of the active member are 0.
 */
typedef struct gen1_own_side {
    gen1_own_member members[6]; /* by place; those after `count` are zeros */
    uint32_t conditions;        /* GEN1_CONDITION_.., added up for all that are on; never GEN1_CONDITION_FLINCH */
    uint16_t stats[4];          /* Attack, Defense, Speed and Special as they are now, 1 to 999 */
    uint16_t turn;              /* 0 before the first turn, then 1 up to the limit */
    uint8_t place;              /* of the active member, 1 to 6 */
    uint8_t types[2];           /* of the active member */
    uint8_t stages[6];          /* Attack, Defense, Speed, Special, accuracy and evasion, 0 to 12; 6 if unchanged */
    uint8_t disabled_slot;      /* 1 to 4; 0 if no slot is disabled */
    uint8_t held;               /* 1 if the foe's trapping move holds the active member, else 0 */
    uint8_t request;            /* GEN1_REQUEST_NOTHING, GEN1_REQUEST_MOVE or GEN1_REQUEST_SWITCH */
    uint8_t outcome;            /* GEN1_OUTCOME_ONGOING to GEN1_OUTCOME_FAULT_TWO */
    uint8_t count;              /* of members, 1 to 6 */
} gen1_own_side;

#define GEN1_OWN_SIDE_SIZE 172 /* the size of a gen1_own_side, for other languages; its alignment is 4 */

/* The knowledge of a player. */
typedef struct gen1_player {
    gen1_public known;  /* both sides, as known from its own team and the bytes that were fed */
    gen1_own_side own;  /* its own side, as last shown; zeros before the first time */
    uint16_t offered;   /* the mask of its choices, as gen1_offered returns it; 0 before the first time */
    uint16_t limit;     /* the last turn, 1 to 9,999 */
    uint8_t side;       /* 1 or 2 */
    uint8_t foes;       /* how many members the foe has, 1 to 6; 0 if unknown */
    uint8_t rules;      /* GEN1_SLEEP_CLAUSE and GEN1_FREEZE_CLAUSE, added up */
    uint8_t hp_form;    /* how the foe's HP is reported to it: GEN1_HP_EXACT, GEN1_HP_BAR or GEN1_HP_HUNDREDTHS */
    uint8_t held_count; /* 0 to 9: how many bytes of `held` are in use */
    uint8_t held[10];   /* the bytes of an incomplete event */
    uint8_t unused;     /* 0 */
} gen1_player;

#define GEN1_PLAYER_SIZE 488 /* the size of a gen1_player, for other languages; its alignment is 4 */

/*
 * How HP of the foe is reported (docs/MECHANICS.md, "What a side is told"). Where one of these is an argument, any other number is the
 * bar.
 */
enum {
    GEN1_HP_EXACT,     /* as it is */
    GEN1_HP_BAR,       /* as the game's bar of 48 pixels shows it; the maximum is 48 */
    GEN1_HP_HUNDREDTHS /* in hundredths of the maximum; the maximum is 100 */
};

/* The host's record of a side to which it reports the log. */
typedef struct gen1_teller {
    uint8_t side;      /* 1 or 2 */
    uint8_t pixels;    /* how the foe's HP is reported: GEN1_HP_EXACT, GEN1_HP_BAR or GEN1_HP_HUNDREDTHS */
    uint8_t places[6]; /* the places of the foe's members that have appeared, in the order in which they did; 0 after the last */
} gen1_teller;

/* What a player is given before a battle, besides its side and its team. */
typedef struct gen1_player_terms {
    uint16_t limit;   /* the last turn, 1 to 9,999 */
    uint8_t rules;    /* GEN1_SLEEP_CLAUSE and GEN1_FREEZE_CLAUSE, added up */
    uint8_t foes;     /* how many members the foe has, 1 to 6; 0 if the player should not know it */
    uint8_t hp_form;  /* that of its teller */
    uint8_t reserved; /* ignored */
} gen1_player_terms;

/*
 * Sets a player to what it knows before a battle: its own team, at full HP, and its terms.
 *
 * Returns 0; or the first that applies of GEN1_ERROR_SIDE, GEN1_ERROR_FOES (`foes` is above 6), GEN1_ERROR_RULES,
 * GEN1_ERROR_TURN_LIMIT, and the error of the team as gen1_new returns it. Then nothing has changed.
 */
uint32_t gen1_player_begin(gen1_player *player, uint8_t side, const gen1_team *team, const gen1_player_terms *terms);

/*
 * Feeds a player the next `count` of the bytes that gen1_tell wrote for its side, cut anywhere. Returns 0; or GEN1_ERROR_LOG_TAG or
 * GEN1_ERROR_LOG_FIELD as gen1_spectator_feed does. Then nothing has changed. With 0, whatever the bytes of the player were, at most
 * 10 bytes are held, with zeros after them, and only they and `known` have changed.
 */
uint8_t gen1_player_feed(gen1_player *player, const uint8_t *told, size_t count);

/* Writes a side of a battle, as it is shown to its own player. Returns 0, or GEN1_ERROR_SIDE; then nothing has changed. */
uint8_t gen1_get_own_side(const gen1_battle *battle, uint8_t side, gen1_own_side *own);

/* Replaces what a player was last shown of its side, and the mask of its choices. */
void gen1_player_show(gen1_player *player, const gen1_own_side *own, uint16_t offered);

/* A guess of what a player can't know. */
typedef struct gen1_guess {
    gen1_team team;      /* the foe's: first the members that have appeared, in the order in which they did, then the others */
    uint8_t numbers[10]; /* the link numbers; the first of them is drawn next */
} gen1_guess;

/* What does not fit. Fields that the code does not name are 0. */
typedef struct gen1_guess_fault {
    gen1_state_fault state; /* GEN1_ERROR_STATE: the field of the state that is wrong */
    uint8_t count;          /* GEN1_ERROR_GUESS_COUNT: how many members the foe has */
    uint8_t member;         /* GEN1_ERROR_GUESS_MEMBER, _MOVE and _HP: which member, in the order of appearance, from 1 */
    uint8_t move_number;    /* GEN1_ERROR_GUESS_MOVE: the move */
    uint8_t unused;         /* 0 */
} gen1_guess_fault;

/*
 * Makes a battle that fits what a player knows, with a guess of the rest, and overwrites `*battle` with it: the base of a search that
 * doesn't cheat (docs/MECHANICS.md, "A battle that fits"). The player may have any bytes.
 *
 * Returns 0; or the error of the team as gen1_new returns it for one team, with GEN1_CODE_OF and GEN1_PLACE_OF; or
 * GEN1_ERROR_NOT_GOING_ON to GEN1_ERROR_GUESS_HP or GEN1_ERROR_STATE, and then `*fault` says what does not fit. Otherwise `*fault` does
 * not change. With an error `*battle` does not change.
 */
uint32_t gen1_battle_from_player(gen1_battle *battle, const gen1_player *player, const gen1_guess *guess, gen1_guess_fault *fault);

/* Sets a teller to the start of a battle. Returns 0, or GEN1_ERROR_SIDE; then nothing has changed. */
uint8_t gen1_teller_begin(gen1_teller *teller, uint8_t side, uint8_t hp_form);

/*
 * Writes the log of an update, as it is reported to the side, to `told`: as many log bytes as `count`, and sets `*length` to their
 * number. Call it once for each update, in order.
 *
 * Returns 0; or the first that applies of GEN1_ERROR_LONG_LOG (`count` is above 512), GEN1_ERROR_SMALL_LOG (`room` is below `count`),
 * and an error of the log as gen1_next_event returns it. Then nothing has changed.
 */
uint8_t gen1_tell(gen1_teller *teller, const uint8_t *log, size_t count, uint8_t *told, size_t room, size_t *length);

/* ---- hosts ---- */

/*
 * A battle of two players and an audience, each of whom is sent what it may know (docs/MECHANICS.md, "Hosts"). A host is a room, the
 * tellers of both sides, offers of a draw, and its options. It is what a server keeps of a battle.
 *
 * The caller owns a host, and may copy and store it. To make one, set `room.battle` by gen1_new or gen1_load and call
 * gen1_host_begin, which writes all other fields. From then on change it only by gen1_host_apply.
 *
 * Tell the sender of a row only whether the host took it, and whether that ended the pair. After each pair send the message of
 * gen1_host_message to each side, and the notice of gen1_host_notice to the audience. Nothing else of a host may be sent. Until a
 * pair has ended, what a side is sent does not depend on what the other side has chosen, or on whether it has.
 *
 * Store the battle that the host began with, its options, and each row that it took: the same rows lead to the same host.
 */
typedef struct gen1_host {
    gen1_room room;         /* the battle, the choices for the current pair, and the log of the last one */
    gen1_teller one;        /* side 1's teller, as it was before the events of the last pair */
    gen1_teller two;        /* side 2's */
    uint8_t ending;         /* the side that has forfeited, 1 or 2; 3 after an agreed draw, else 0 */
    uint8_t draw;           /* the side that offers a draw, or 0 */
    uint8_t may_cancel;     /* 1 if a side may take its choice back while the other's is missing, else 0 */
    uint8_t late_forfeits;  /* 1 if a side whose time has run out forfeits, 0 if its first choice is made */
} gen1_host;

#define GEN1_HOST_SIZE 928 /* the size of a gen1_host, for other languages; its alignment is 4 */

/* The kinds of rows. */
enum {
    GEN1_ROW_SUBMIT = 1,     /* the side submits `choice` for the pair with this number */
    GEN1_ROW_CANCEL = 2,     /* it takes its choice for this pair back */
    GEN1_ROW_EXPIRE = 3,     /* its time for this pair has run out */
    GEN1_ROW_OFFER_DRAW = 4, /* it offers a draw, or accepts the other side's offer */
    GEN1_ROW_FORFEIT = 5     /* it forfeits: the other side wins */
};

/* What happens at a host. The fields that a kind does not name are not read. */
typedef struct gen1_row {
    uint8_t kind;        /* GEN1_ROW_SUBMIT to GEN1_ROW_FORFEIT */
    uint8_t side;        /* 1 or 2 */
    uint8_t choice;      /* submit: the choice */
    uint8_t has_numbers; /* submit, expire: whether the battle draws `numbers` from then on; draw new ones from the operating
                            system's source for each row, since nine draws in a row give all that follow */
    uint32_t number;     /* submit, cancel, expire: the number of the pair */
    uint8_t numbers[10]; /* submit, expire: ten link numbers */
    uint8_t unused[2];   /* not read */
} gen1_row;

#define GEN1_ROW_SIZE 20 /* the size of a gen1_row, for other languages; its alignment is 4 */

/* All that a side is sent after a pair that has ended, and at the beginning. */
typedef struct gen1_message {
    gen1_own_side own;          /* what the side is shown of itself; at a host that has ended it is asked nothing */
    uint32_t number;            /* the number of the current pair */
    uint16_t offered;           /* the mask of its choices, as gen1_offered returns it; 0 once the battle is over */
    uint16_t log_length;        /* 0 to 512: how many bytes of `log` belong to the last pair */
    uint8_t draw;               /* the side that offers a draw, or 0 */
    uint8_t unused[3];          /* 0 */
    uint8_t log[GEN1_LOG_ROOM]; /* the log of the last pair as reported to the side, then zeros */
} gen1_message;

#define GEN1_MESSAGE_SIZE 696 /* the size of a gen1_message, for other languages; its alignment is 4 */

/* All that the audience is sent after a pair that has ended, and at the beginning. */
typedef struct gen1_notice {
    uint32_t number;            /* the number of the current pair */
    uint16_t log_length;        /* 0 to 512: how many bytes of `log` belong to the last pair */
    uint8_t outcome;            /* GEN1_OUTCOME_ONGOING to GEN1_OUTCOME_FAULT_TWO */
    uint8_t draw;               /* the side that offers a draw, or 0 */
    uint8_t log[GEN1_LOG_ROOM]; /* the log of the last pair as both sides' tellers tell it, one after the other, then zeros */
} gen1_notice;

#define GEN1_NOTICE_SIZE 520 /* the size of a gen1_notice, for other languages; its alignment is 4 */

/*
 * Makes a host of the battle in `host->room.battle`. If the battle is before its first update, that update is played at once. A foe's
 * HP is reported to each side and the audience in the form `hp_form`. The other two options count as set if they are not 0.
 */
void gen1_host_begin(gen1_host *host, uint8_t hp_form, uint8_t may_cancel, uint8_t late_forfeits);

/*
 * Reads a host from the bytes in it, which may be any, such as those of a file. They are accepted exactly if they are those of a host.
 * What gen1_host_begin and gen1_host_apply leave is accepted and does not change. If only the battle is of an older layout version, it
 * becomes one of version 3.
 *
 * Returns 0, or the first test that the bytes fail: an error of the battle as gen1_load returns it, or GEN1_ERROR_HOST_NUMBER to
 * GEN1_ERROR_HOST_UNUSED. Then nothing has changed.
 */
uint8_t gen1_host_load(gen1_host *host);

/*
 * Applies a row to a host.
 *
 * Returns 0 if the host takes it. Once both choices of a pair are there, the battle is updated and the number rises by one; so it does
 * at a forfeit and at an agreed draw. Otherwise it returns the first of these codes that applies, and nothing has changed:
 * GEN1_ERROR_SIDE, GEN1_ERROR_ROW (the kind is not 1 to 5), GEN1_ERROR_OVER, GEN1_ERROR_NO_CANCEL, GEN1_ERROR_STALE (not of an offer or
 * a forfeit), GEN1_ERROR_CHOSEN (submit and expire), GEN1_ERROR_NOT_OFFERED (submit), GEN1_ERROR_NOTHING_CHOSEN (cancel).
 *
 * An offer of a draw ends with the pair. It ends no pair, so no message is due: report it to the other side by itself.
 */
uint8_t gen1_host_apply(gen1_host *host, const gen1_row *row);

/* Writes what a side is to be sent now. Returns 0, or GEN1_ERROR_SIDE; then nothing has changed. */
uint8_t gen1_host_message(const gen1_host *host, uint8_t side, gen1_message *message);

/* Writes what the audience is to be sent now. */
void gen1_host_notice(const gen1_host *host, gen1_notice *notice);

/* Returns the number of the current pair: how many have ended. At a host that has ended early it is past the last one. */
uint32_t gen1_host_number(const gen1_host *host);

/*
 * Returns the sides whose choices are missing: 1 for side 1, plus 2 for side 2; 0 once the battle is over. It is for the host: only the
 * side itself may learn that its choice is missing.
 */
uint8_t gen1_host_awaited(const gen1_host *host);

/* Returns the outcome of the host and the request to each side, as gen1_result does for its battle. It is for the host. */
uint8_t gen1_host_result(const gen1_host *host);

#ifdef __cplusplus
}
#endif

#endif
