/* Calls of players, states that are written, and chances, with arguments out of their ranges (hostile.c). */
#include "lawful.h"

#include <string.h>

static bool is_side(uint8_t side) { return side == GEN1_ONE || side == GEN1_TWO; }

/* Any number but those of exact HP and of hundredths is the bar. */
static uint8_t form_of(uint8_t number) { return number == GEN1_HP_HUNDREDTHS ? number : number != GEN1_HP_EXACT; }

static uint8_t some_side(void) { return one_in(4) ? any_byte() : (uint8_t)(1 + draw(2)); }

/* ---- players ---- */

static gen1_player_terms some_terms(void) {
    return (gen1_player_terms){
        .limit = (uint16_t)(1 + draw(9999)), (uint8_t)draw(4), (uint8_t)draw(7), (uint8_t)draw(3), 0};
}

static void try_player_begin(void) {
    gen1_team of = lawful_team(), other = lawful_team();
    for (uint32_t times = draw(3); times > 0; times--)
        spoil(&of);
    uint8_t side = some_side();
    gen1_player_terms asked = some_terms();
    for (uint32_t changes = draw(3); changes > 0; changes--)
        ((uint8_t *)&asked)[draw(sizeof asked)] = any_byte();
    uint32_t want = !is_side(side)   ? GEN1_ERROR_SIDE
                    : asked.foes > 6 ? GEN1_ERROR_FOES
                                     : fault_of_new(&of, &other, asked.rules, asked.limit) & 0xffff;
    gen1_player *player = block(0, sizeof *player);
    const gen1_team *team = block_of(1, &of, sizeof of);
    const gen1_player_terms *terms = block_of(2, &asked, sizeof asked);
    note();
    uint32_t got = gen1_player_begin(player, side, team, terms);
    bool is_right = got != 0 ? unchanged()
                             : changed_only(0, sizeof *player) && player->side == side && player->foes == asked.foes &&
                                   player->rules == asked.rules && player->limit == asked.limit &&
                                   player->unused == 0 && player->held_count == 0 && player->offered == 0 &&
                                   player->hp_form == form_of(asked.hp_form) &&
                                   player->known.sides[side - 1].members[0].species == of.members[0].species &&
                                   player->known.sides[2 - side].members[0].species == 0;
    tell("gen1_player_begin", got == want && is_right, (long)got, (long)want);
}

/* A player before its battle, or any bytes. */
static gen1_player some_player(bool *is_valid) {
    gen1_player player;
    gen1_team team = lawful_team();
    memset(&player, 0, sizeof player);
    gen1_player_terms terms = some_terms();
    gen1_player_begin(&player, (uint8_t)(1 + draw(2)), &team, &terms);
    *is_valid = !one_in(4);
    for (uint32_t changes = *is_valid ? 0 : 1 + draw(60); changes > 0; changes--)
        ((uint8_t *)&player)[draw(sizeof player)] = any_byte();
    return player;
}

/* A lawful log is taken in; other bytes return a code, and change nothing. */
static void try_player_feed(void) {
    bool is_valid;
    gen1_player from = some_player(&is_valid);
    size_t count;
    const uint8_t *log = some_log(&count);
    gen1_player *player = block_of(1, &from, sizeof from);
    note();
    uint8_t got = gen1_player_feed(player, count == 0 ? NULL : log, count);
    bool is_right = got != 0 ? unchanged() && (got == GEN1_ERROR_LOG_TAG || got == GEN1_ERROR_LOG_FIELD)
                             : changed_only(1, sizeof *player) && player->held_count <= sizeof player->held;
    if (is_valid)
        is_right &= player->hp_form == from.hp_form && player->known.may_hit_itself <= 2;
    tell("gen1_player_feed", is_right, got, 0);
}

/* What is shown is what gen1_get_state writes of the side. */
static bool is_own(const gen1_own_side *own, const gen1_side_state *side) {
    bool is_right = own->place == side->active.place && own->disabled_slot == side->active.disabled_slot &&
                    own->conditions == (side->active.conditions & ~(uint32_t)GEN1_CONDITION_FLINCH) &&
                    memcmp(own->stats, side->active.stats, sizeof own->stats) == 0;
    for (int at = 0; at < 6; at++) {
        const gen1_own_member *member = &own->members[at];
        const gen1_member_state *it = &side->members[at];
        is_right &= member->species == it->species && member->hp == it->hp && member->status == it->status &&
                    memcmp(member->pp, it->pp, sizeof it->pp) == 0 && (it->species != 0) == (at < own->count);
    }
    return is_right;
}

static void try_get_own_side(void) {
    bool is_valid;
    gen1_battle from = some_battle(&is_valid);
    uint8_t side = some_side();
    const gen1_battle *battle = block_of(0, &from, sizeof from);
    gen1_own_side *own = block(1, sizeof *own);
    note();
    uint8_t got = gen1_get_own_side(battle, side, own), want = is_side(side) ? 0 : GEN1_ERROR_SIDE;
    bool is_right = got != 0 ? unchanged() : changed_only(1, sizeof *own) && own->count <= 6;
    for (int at = 0; got == 0 && at < 6; at++)
        is_right &= own->members[at].unused == 0;
    if (got == 0 && want == 0 && is_valid) {
        gen1_state state;
        gen1_get_state(&from, &state);
        is_right &=
            own->turn == state.turn && own->request == state.requests[side - 1] && is_own(own, &state.sides[side - 1]);
    }
    tell("gen1_get_own_side", got == want && is_right, got, want);
}

static void try_player_show(void) {
    bool is_valid;
    gen1_player from = some_player(&is_valid);
    gen1_player *player = block_of(0, &from, sizeof from);
    const gen1_own_side *own = block(1, sizeof *own);
    uint16_t offered = (uint16_t)draw(65536);
    note();
    gen1_player_show(player, own, offered);
    bool is_right = changed_only(0, sizeof *player) && player->offered == offered &&
                    memcmp(&player->own, own, sizeof *own) == 0 &&
                    memcmp(&player->known, &from.known, sizeof from.known) == 0;
    tell("gen1_player_show", is_right, 0, 0);
}

static void try_teller_begin(void) {
    uint8_t side = some_side(), form = one_in(4) ? GEN1_HP_HUNDREDTHS : any_byte();
    gen1_teller *teller = block(0, sizeof *teller);
    note();
    uint8_t got = gen1_teller_begin(teller, side, form), want = is_side(side) ? 0 : GEN1_ERROR_SIDE;
    bool is_right = got != 0
                        ? unchanged()
                        : changed_only(0, sizeof *teller) && teller->side == side && teller->pixels == form_of(form);
    tell("gen1_teller_begin", got == want && is_right, got, want);
}

/* A reported log has as many bytes as the log. With exact HP it differs from it only in places of the foe's members. */
static void try_tell(void) {
    size_t count, room = draw(GUARDED_ROOM / 4);
    const uint8_t *log = some_log(&count);
    gen1_teller from;
    gen1_teller_begin(&from, (uint8_t)(1 + draw(2)), (uint8_t)draw(3));
    for (uint32_t changes = one_in(4) ? draw(9) : 0; changes > 0; changes--)
        ((uint8_t *)&from)[draw(sizeof from)] = any_byte();
    gen1_teller *teller = block_of(1, &from, sizeof from);
    uint8_t *told = block(2, room);
    size_t *length = block(3, sizeof *length);
    note();
    uint8_t got = gen1_tell(teller, count == 0 ? NULL : log, count, room == 0 ? NULL : told, room, length);
    const size_t sizes[BLOCKS] = {0, sizeof *teller, count, sizeof *length};
    bool is_code = got == GEN1_ERROR_LOG_TAG || got == GEN1_ERROR_LOG_FIELD || got == GEN1_ERROR_LOG_CUT;
    bool is_right = count > GEN1_LOG_ROOM ? got == GEN1_ERROR_LONG_LOG && unchanged()
                    : room < count        ? got == GEN1_ERROR_SMALL_LOG && unchanged()
                    : got != 0            ? is_code && unchanged()
                                          : changed_only_these(sizes) && *length == count;
    tell("gen1_tell", is_right, got, 0);
}

static uint16_t max_hp_of(const gen1_member *member) {
    gen1_team team = {.members = {*member}, .count = 1};
    gen1_battle battle;
    gen1_state state;
    gen1_new(&battle, &team, &team, (uint8_t[10]){0}, 0, GEN1_LIMIT);
    gen1_get_state(&battle, &state);
    return state.sides[0].members[0].max_hp;
}

static uint8_t last_move_of(const gen1_side_state *side) {
    uint8_t slot = side->active.current_move;
    return slot == 5 ? GEN1_MOVE_STRUGGLE : slot == 0 ? 0 : side->members[side->active.place - 1].moves[slot - 1];
}

/* A player that has seen the whole foe of a battle of lawful play, and a guess with its moves, of whose maxima it was told. */
static void player_of(const gen1_battle *of, uint8_t side, gen1_player *player, gen1_guess *guess) {
    gen1_state state;
    gen1_own_side own;
    gen1_get_state(of, &state);
    gen1_get_own_side(of, side, &own);
    memset(player, 0, sizeof *player);
    memset(guess, 0, sizeof *guess);
    player->side = side;
    gen1_player_show(player, &own, 0);
    const gen1_side_state *foe = &state.sides[2 - side];
    gen1_public_side *known = &player->known.sides[2 - side];
    for (int at = 0; at < 6 && foe->members[at].species != 0; at++) {
        const gen1_member_state *it = &foe->members[at];
        gen1_member *member = &guess->team.members[guess->team.count++];
        member->species = it->species, member->level = it->level;
        memcpy(member->moves, it->moves, sizeof it->moves);
        uint16_t most = max_hp_of(member);
        known->members[at] = (gen1_seen){.hp = it->hp < most ? it->hp : most, .max = most, .species = it->species};
        known->members[at].level = it->level, known->members[at].status = it->status;
    }
    memcpy(known->stages, foe->active.stages, sizeof known->stages);
    known->place = foe->active.place, known->last_move = last_move_of(foe);
    player->known.sides[side - 1].last_move = last_move_of(&state.sides[side - 1]);
    player->known.outcome = state.outcome;
    player->limit = 9999, player->rules = state.rules;
}

/* The battle shows the player its own side as it was shown. Where bytes were changed it is refused, or a battle that gen1_load takes. A
 * member that was told with another maximum is refused by its number. */
static void try_battle_from_player(void) {
    gen1_battle of = met[draw(MET)], loaded;
    uint8_t side = (uint8_t)(1 + draw(2)), result = gen1_result(&of);
    gen1_player from;
    gen1_guess asked;
    player_of(&of, side, &from, &asked);
    bool is_lawful = one_in(3);
    uint8_t other = is_lawful && one_in(4) ? (uint8_t)(1 + draw(asked.team.count)) : 0;
    if (other != 0)
        from.known.sides[2 - side].members[other - 1].max++;
    for (uint32_t changes = is_lawful ? 0 : 1 + draw(9); changes > 0; changes--)
        if (one_in(4))
            ((uint8_t *)&asked)[draw(sizeof asked)] = any_byte();
        else
            ((uint8_t *)&from)[draw(sizeof from)] = any_byte();
    gen1_battle *battle = block(0, sizeof *battle);
    const gen1_player *player = block_of(1, &from, sizeof from);
    const gen1_guess *guess = block_of(2, &asked, sizeof asked);
    gen1_guess_fault *fault = block(3, sizeof *fault);
    note();
    uint32_t got = gen1_battle_from_player(battle, player, guess, fault);
    bool is_fault = got == GEN1_ERROR_STATE || (got >= GEN1_ERROR_NOT_GOING_ON && got <= GEN1_ERROR_GUESS_HP);
    bool is_told_otherwise = other != 0 && got == GEN1_ERROR_GUESS_HP && fault->member == other;
    bool is_right =
        got == 0   ? changed_only(0, sizeof *battle) && gen1_load(&loaded, battle->bytes, sizeof battle->bytes) == 0
        : is_fault ? (!is_lawful || got == GEN1_ERROR_NOT_GOING_ON || is_told_otherwise) &&
                         changed_only(3, sizeof *fault) && fault->unused == 0
                   : !is_lawful && GEN1_CODE_OF(got) < GEN1_ERROR_RULES && unchanged();
    if (is_lawful) {
        gen1_own_side own;
        gen1_get_own_side(got == 0 ? battle : &of, side, &own);
        bool goes_on = from.own.place != 0 && GEN1_RESULT_OUTCOME(result) == GEN1_OUTCOME_ONGOING;
        is_right &= (got == 0) == (goes_on && other == 0) && is_told_otherwise == (goes_on && other != 0) &&
                    memcmp(&own, &from.own, sizeof own) == 0;
    }
    tell("gen1_battle_from_player", is_right, (long)got, 0);
}

/* ---- states and chances ---- */

/* A state of lawful play gives its battle again. One in which bytes were changed is refused, or gives a battle that gen1_load takes. */
static void try_set_state(void) {
    gen1_battle of = met[draw(MET)];
    gen1_state from;
    gen1_get_state(&of, &from);
    bool is_lawful = one_in(3);
    for (uint32_t changes = is_lawful ? 0 : 1 + draw(4); changes > 0; changes--)
        ((uint8_t *)&from)[draw(sizeof from)] = any_byte();
    gen1_battle *battle = block(0, sizeof *battle);
    const gen1_state *state = block_of(1, &from, sizeof from);
    gen1_state_fault *fault = block(2, sizeof *fault);
    note();
    uint8_t got = gen1_set_state(battle, state, fault);
    gen1_battle loaded;
    bool is_right =
        got == 0 ? changed_only(0, sizeof *battle) && gen1_load(&loaded, battle->bytes, sizeof battle->bytes) == 0
                 : got == GEN1_ERROR_STATE && !is_lawful && changed_only(2, sizeof *fault) && fault->field != 0;
    if (is_lawful)
        is_right &= memcmp(battle, &of, sizeof of) == 0;
    tell("gen1_set_state", is_right, got, is_lawful ? 0 : got);
}

static void try_knock_out(void) {
    bool is_valid;
    gen1_battle from = some_battle(&is_valid);
    uint8_t side = some_side(), move = one_in(4) ? any_byte() : (uint8_t)(1 + draw(165));
    const gen1_battle *battle = block_of(0, &from, sizeof from);
    gen1_chances *chances = block(1, sizeof *chances);
    gen1_state state;
    gen1_get_state(&from, &state);
    note();
    uint8_t got = gen1_knock_out(battle, side, move, chances);
    uint8_t want = !is_side(side)           ? GEN1_ERROR_SIDE
                   : move < 1 || move > 165 ? GEN1_ERROR_MOVE
                   : state.turn == 0        ? GEN1_ERROR_NOBODY_OUT
                                            : 0;
    bool is_right = got != 0 ? unchanged() : changed_only(1, sizeof *chances);
    if (got == 0 && is_valid)
        is_right &= chances->once <= chances->once_of && chances->twice <= chances->twice_of &&
                    chances->once_of <= 20447232 && chances->twice_of == chances->once_of * chances->once_of &&
                    chances->breaks_substitute <= 1 && chances->zeros[6] == 0;
    tell("gen1_knock_out", got == want && is_right, got, want);
}

static void try_action_odds_now(void) {
    bool is_valid;
    gen1_battle from = some_battle(&is_valid);
    uint8_t side = some_side(), move = one_in(4) ? any_byte() : (uint8_t)(1 + draw(165));
    const gen1_battle *battle = block_of(0, &from, sizeof from);
    gen1_action_odds *odds = block(1, sizeof *odds);
    gen1_odds use;
    note();
    uint8_t want = gen1_odds_now(&from, side, move, &use), got = gen1_action_odds_now(battle, side, move, odds);
    bool is_right = got != 0 ? unchanged() : changed_only(1, sizeof *odds);
    if (got == 0)
        is_right &= odds->acts <= odds->acts_of && odds->acts_of == 65536 && odds->hits <= odds->hits_of &&
                    odds->hits_of == 4294967296 && odds->side_effect <= 256 && odds->holds <= 256 &&
                    odds->zeros[3] == 0 && (use.hit_draws != 0 || odds->hits == 0);
    tell("gen1_action_odds_now", got == want && is_right, got, want);
}

static gen1_hp_change some_change(void) {
    return (gen1_hp_change){(uint16_t)(one_in(2) ? 0 : draw(65536)), (uint16_t)(one_in(2) ? draw(100) : draw(65536))};
}

static bool is_less(gen1_wide one, gen1_wide two) {
    return one.high < two.high || (one.high == two.high && one.low < two.low);
}

static void try_knock_out_in_three(void) {
    bool is_valid;
    gen1_battle from = some_battle(&is_valid);
    uint8_t side = some_side(), move = one_in(4) ? any_byte() : (uint8_t)(1 + draw(165));
    gen1_between changes = {some_change(), some_change()};
    const gen1_battle *battle = block_of(0, &from, sizeof from);
    const gen1_between *between = block_of(1, &changes, sizeof changes);
    gen1_three_chances *chances = block(2, sizeof *chances);
    gen1_chances two;
    note();
    uint8_t want = gen1_knock_out(&from, side, move, &two);
    uint8_t got = gen1_knock_out_in_three(battle, side, move, between, chances);
    bool is_right = got != 0 ? unchanged() : changed_only(2, sizeof *chances);
    if (got == 0)
        is_right &= chances->once == two.once && chances->once_of == two.once_of && chances->twice_of == two.twice_of &&
                    chances->breaks_substitute == two.breaks_substitute && chances->zeros[6] == 0;
    if (got == 0 && is_valid)
        is_right &= chances->twice <= chances->twice_of && !is_less(chances->thrice_of, chances->thrice);
    tell("gen1_knock_out_in_three", got == want && is_right, got, want);
}

static uint16_t at_least_1(uint16_t number) { return number == 0 ? 1 : number; }

static void try_drained(void) {
    uint8_t move = one_in(2) ? GEN1_MOVE_ABSORB : any_byte();
    uint16_t damage = (uint16_t)draw(65536);
    bool drains = move == GEN1_MOVE_ABSORB || move == GEN1_MOVE_MEGA_DRAIN || move == GEN1_MOVE_LEECH_LIFE ||
                  move == GEN1_MOVE_DREAM_EATER;
    note();
    uint16_t got = gen1_drained(move, damage), want = drains ? at_least_1(damage / 2) : 0;
    tell("gen1_drained", got == want && unchanged(), got, want);
}

static void try_recoil(void) {
    uint8_t move = one_in(2) ? (one_in(2) ? GEN1_MOVE_STRUGGLE : GEN1_MOVE_TAKE_DOWN) : any_byte();
    uint16_t damage = (uint16_t)draw(65536);
    bool recoils = move == GEN1_MOVE_TAKE_DOWN || move == GEN1_MOVE_DOUBLE_EDGE || move == GEN1_MOVE_SUBMISSION;
    note();
    uint16_t got = gen1_recoil(move, damage);
    uint16_t want = move == GEN1_MOVE_STRUGGLE ? at_least_1(damage / 2) : recoils ? at_least_1(damage / 4) : 0;
    tell("gen1_recoil", got == want && unchanged(), got, want);
}

try_call *const tries_of_players[] = {try_player_begin,
                                      try_player_feed,
                                      try_get_own_side,
                                      try_player_show,
                                      try_battle_from_player,
                                      try_teller_begin,
                                      try_tell,
                                      try_set_state,
                                      try_knock_out,
                                      try_action_odds_now,
                                      try_knock_out_in_three,
                                      try_drained,
                                      try_recoil,
                                      NULL};
