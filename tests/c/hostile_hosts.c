/* Calls of hosts, with arguments out of their ranges (hostile.c). The expected result is from its room and its tellers. */
#include "lawful.h"

#include <string.h>

static bool is_side(uint8_t side) { return side == GEN1_ONE || side == GEN1_TWO; }

static bool is_closed(const gen1_host *host) {
    return host->ending != 0 || GEN1_RESULT_OUTCOME(gen1_result(&host->room.battle)) != GEN1_OUTCOME_ONGOING;
}

/* What is asked of a side, by gen1_result. */
static uint8_t request_of(const gen1_battle *battle, uint8_t side) {
    uint8_t result = gen1_result(battle);
    return side == GEN1_ONE ? GEN1_RESULT_REQUEST_ONE(result) : GEN1_RESULT_REQUEST_TWO(result);
}

/* The outcome of a host: of its battle, or of its early end. */
static uint8_t outcome_of(const gen1_host *host) {
    static const uint8_t early[4] = {0, GEN1_OUTCOME_WIN_TWO, GEN1_OUTCOME_WIN_ONE, GEN1_OUTCOME_TIE};
    return host->ending != 0 ? early[host->ending] : GEN1_RESULT_OUTCOME(gen1_result(&host->room.battle));
}

/* ---- beginning ---- */

static void try_host_begin(void) {
    bool is_valid;
    gen1_host due;
    memset(&due, 0, sizeof due);
    due.room.battle = some_battle(&is_valid);
    uint8_t form = one_in(4) ? GEN1_HP_HUNDREDTHS : any_byte(), may_cancel = any_byte(), late_forfeits = any_byte();
    gen1_host *host = block(0, sizeof *host);
    host->room.battle = due.room.battle;
    note();
    gen1_host_begin(host, form, may_cancel, late_forfeits);
    gen1_room_begin(&due.room);
    gen1_teller_begin(&due.one, GEN1_ONE, form);
    gen1_teller_begin(&due.two, GEN1_TWO, form);
    due.may_cancel = may_cancel != 0;
    due.late_forfeits = late_forfeits != 0;
    tell("gen1_host_begin", changed_only(0, sizeof *host) && memcmp(host, &due, sizeof due) == 0, 0, 0);
}

/* ---- rows ---- */

/* A row that is often lawful. */
static gen1_row some_row(const gen1_host *host) {
    gen1_row row;
    row.kind = one_in(8) ? any_byte() : one_in(2) ? GEN1_ROW_SUBMIT : (uint8_t)(1 + draw(one_in(8) ? 5 : 4));
    row.side = one_in(8) ? any_byte() : (uint8_t)(1 + draw(2));
    row.choice = one_in(4) || !is_side(row.side) ? any_byte() : offered(&host->room.battle, row.side);
    row.has_numbers = one_in(2) ? any_byte() : 0;
    row.number = one_in(8) ? host->room.number + draw(3) - 1 : one_in(8) ? UINT32_MAX : host->room.number;
    for (int at = 0; at < 10; at++)
        row.numbers[at] = any_byte();
    row.unused[0] = any_byte();
    row.unused[1] = any_byte();
    return row;
}

/* A host of lawful play, or any bytes. */
static gen1_host some_host(bool *is_valid) {
    gen1_host host;
    memset(&host, 0, sizeof host);
    host.room.battle = met[draw(MET)];
    gen1_host_begin(&host, (uint8_t)draw(2), (uint8_t)draw(2), (uint8_t)draw(2));
    for (uint32_t times = draw(8); times > 0; times--) {
        gen1_row row = some_row(&host);
        gen1_host_apply(&host, &row);
    }
    *is_valid = !one_in(4);
    for (uint32_t changes = *is_valid ? 0 : 1 + draw(one_in(2) ? 4 : 400); changes > 0; changes--)
        ((uint8_t *)&host)[draw(sizeof host)] = any_byte();
    return host;
}

/* The expected code of a row of one of the kinds, at a lawful host that is not closed. */
static uint8_t fault_at(const gen1_host *host, const gen1_row *row) {
    bool has_chosen = host->room.chosen[row->side - 1] != GEN1_DUE;
    if (row->kind == GEN1_ROW_CANCEL && host->may_cancel == 0)
        return GEN1_ERROR_NO_CANCEL;
    if (row->kind <= GEN1_ROW_EXPIRE && row->number != host->room.number)
        return GEN1_ERROR_STALE;
    if (row->kind == GEN1_ROW_CANCEL) {
        bool is_filled_in = request_of(&host->room.battle, row->side) == GEN1_REQUEST_NOTHING;
        return has_chosen && !is_filled_in ? 0 : GEN1_ERROR_NOTHING_CHOSEN;
    }
    if (row->kind <= GEN1_ROW_EXPIRE && has_chosen)
        return GEN1_ERROR_CHOSEN;
    bool is_refused = row->kind == GEN1_ROW_SUBMIT && !is_offered(&host->room.battle, row->side, row->choice);
    return is_refused ? GEN1_ERROR_NOT_OFFERED : 0;
}

static uint8_t fault_of_row(const gen1_host *host, const gen1_row *row) {
    return !is_side(row->side)                                           ? GEN1_ERROR_SIDE
           : row->kind < GEN1_ROW_SUBMIT || row->kind > GEN1_ROW_FORFEIT ? GEN1_ERROR_ROW
           : is_closed(host)                                             ? GEN1_ERROR_OVER
                                                                         : fault_at(host, row);
}

/* A choice is submitted to the room. If that ends the pair, both tellers report the log before it, and an offer of a draw lapses. */
static void submit(gen1_host *host, const gen1_row *row, uint8_t choice) {
    gen1_room next = host->room;
    if (row->has_numbers != 0)
        gen1_reseed(&next.battle, row->numbers, 0);
    gen1_room_submit(&next, row->side, row->number, choice);
    if (next.number != host->room.number) {
        uint8_t told[GEN1_LOG_ROOM];
        size_t length;
        gen1_tell(&host->one, host->room.log, host->room.log_length, told, sizeof told, &length);
        gen1_tell(&host->two, host->room.log, host->room.log_length, told, sizeof told, &length);
        host->draw = 0;
    }
    host->room = next;
}

/* The expected host after a lawful one has taken a row. */
static void take(gen1_host *host, const gen1_row *row) {
    uint8_t choices[9];
    switch (row->kind) {
    case GEN1_ROW_SUBMIT:
        submit(host, row, row->choice);
        break;
    case GEN1_ROW_CANCEL:
        host->room.chosen[row->side - 1] = GEN1_DUE;
        break;
    case GEN1_ROW_EXPIRE:
        if (host->late_forfeits != 0)
            host->ending = row->side;
        else if (gen1_room_choices(&host->room, row->side, choices) != 0)
            submit(host, row, choices[0]);
        break;
    case GEN1_ROW_OFFER_DRAW:
        if (host->draw == 3 - row->side)
            host->ending = 3;
        else
            host->draw = row->side;
        break;
    default:
        host->ending = row->side;
    }
}

static bool is_code(uint8_t code) {
    return code == 0 || code == GEN1_ERROR_SIDE || code == GEN1_ERROR_OVER ||
           (code >= GEN1_ERROR_STALE && code <= GEN1_ERROR_ROW);
}

static void try_host_apply(void) {
    bool is_valid;
    gen1_host from = some_host(&is_valid);
    gen1_row asked = some_row(&from);
    gen1_host *host = block_of(0, &from, sizeof from);
    const gen1_row *row = block_of(1, &asked, sizeof asked);
    note();
    uint8_t got = gen1_host_apply(host, row), want = is_valid || !is_side(row->side) ? fault_of_row(&from, row) : got;
    bool is_right = is_code(got) && (got != 0 ? unchanged() : changed_only(0, sizeof *host));
    if (is_valid && got == 0 && want == 0) {
        take(&from, row);
        is_right &= memcmp(host, &from, sizeof from) == 0;
    }
    is_right &= is_valid || from.ending > 3 || from.draw > 2 || from.room.log_length > GEN1_LOG_ROOM ||
                (host->ending <= 3 && host->draw <= 2 && host->room.log_length <= GEN1_LOG_ROOM);
    tell("gen1_host_apply", got == want && is_right, got, want);
}

/* ---- messages ---- */

/* Writes what one side's teller, and then perhaps the other's, reports of a host's last pair. Returns its length. */
static size_t told_of(const gen1_host *host, uint8_t side, bool is_of_both, uint8_t told[GEN1_LOG_ROOM]) {
    uint8_t log[GEN1_LOG_ROOM] = {GEN1_EVENT_WIN, (uint8_t)(3 - host->ending)};
    size_t length = host->ending == 3 ? 1 : 2;
    if (host->ending == 3)
        log[0] = GEN1_EVENT_TIE, log[1] = 0;
    if (host->ending == 0) {
        length = host->room.log_length;
        memcpy(log, host->room.log, length);
    }
    gen1_teller one = host->one, two = host->two;
    memset(told, 0, GEN1_LOG_ROOM);
    gen1_tell(side == GEN1_ONE ? &one : &two, log, length, told, GEN1_LOG_ROOM, &length);
    if (is_of_both) {
        memcpy(log, told, length);
        gen1_tell(&two, log, length, told, GEN1_LOG_ROOM, &length);
    }
    return length;
}

static uint32_t number_of(const gen1_host *host) { return host->room.number + (host->ending != 0); }

static bool is_message(const gen1_message *message, const gen1_host *host, uint8_t side) {
    gen1_own_side own;
    gen1_get_own_side(&host->room.battle, side, &own);
    if (host->ending != 0)
        own.request = GEN1_REQUEST_NOTHING;
    own.outcome = outcome_of(host);
    uint8_t told[GEN1_LOG_ROOM];
    uint16_t mask = is_closed(host) ? 0 : gen1_offered(&host->room.battle, side);
    return message->log_length == told_of(host, side, false, told) && memcmp(message->log, told, sizeof told) == 0 &&
           memcmp(&message->own, &own, sizeof own) == 0 && message->number == number_of(host) &&
           message->offered == mask && message->draw == host->draw;
}

static void try_host_message(void) {
    bool is_valid;
    gen1_host from = some_host(&is_valid);
    uint8_t side = one_in(4) ? any_byte() : (uint8_t)(1 + draw(2));
    const gen1_host *host = block_of(0, &from, sizeof from);
    gen1_message *message = block(1, sizeof *message);
    note();
    uint8_t got = gen1_host_message(host, side, message), want = is_side(side) ? 0 : GEN1_ERROR_SIDE;
    bool is_right = got != 0 ? unchanged() : changed_only(1, sizeof *message);
    if (got == 0) {
        size_t length = message->log_length;
        is_right &= length <= GEN1_LOG_ROOM && are_zeros(message->log + length, GEN1_LOG_ROOM - length) &&
                    are_zeros(message->unused, sizeof message->unused);
        is_right &= !is_valid || is_message(message, &from, side);
    }
    tell("gen1_host_message", got == want && is_right, got, want);
}

static void try_host_notice(void) {
    bool is_valid;
    gen1_host from = some_host(&is_valid);
    const gen1_host *host = block_of(0, &from, sizeof from);
    gen1_notice *notice = block(1, sizeof *notice);
    note();
    gen1_host_notice(host, notice);
    size_t length = notice->log_length;
    bool is_right = changed_only(1, sizeof *notice) && length <= GEN1_LOG_ROOM &&
                    are_zeros(notice->log + length, GEN1_LOG_ROOM - length);
    if (is_valid) {
        uint8_t told[GEN1_LOG_ROOM];
        is_right &= length == told_of(&from, GEN1_ONE, true, told) && memcmp(notice->log, told, sizeof told) == 0 &&
                    notice->number == number_of(&from) && notice->outcome == outcome_of(&from) &&
                    notice->draw == from.draw;
    }
    tell("gen1_host_notice", is_right, 0, 0);
}

/* ---- for the host itself ---- */

static void try_host_number(void) {
    bool is_valid;
    gen1_host from = some_host(&is_valid);
    const gen1_host *host = block_of(0, &from, sizeof from);
    note();
    uint32_t got = gen1_host_number(host), want = is_valid ? number_of(&from) : got;
    tell("gen1_host_number", got == want && unchanged(), (long)got, (long)want);
}

static void try_host_awaited(void) {
    bool is_valid;
    gen1_host from = some_host(&is_valid);
    const gen1_host *host = block_of(0, &from, sizeof from);
    note();
    uint8_t got = gen1_host_awaited(host), want = got;
    if (is_valid) {
        const uint8_t *chosen = from.room.chosen;
        want = is_closed(&from) ? 0 : (uint8_t)((chosen[0] == GEN1_DUE) + 2 * (chosen[1] == GEN1_DUE));
    }
    tell("gen1_host_awaited", got == want && got <= 3 && unchanged(), got, want);
}

static void try_host_result(void) {
    bool is_valid;
    gen1_host from = some_host(&is_valid);
    const gen1_host *host = block_of(0, &from, sizeof from);
    note();
    uint8_t got = gen1_host_result(host), want = got;
    if (is_valid)
        want = from.ending != 0 ? outcome_of(&from) : gen1_result(&from.room.battle);
    bool is_listed = GEN1_RESULT_OUTCOME(got) <= GEN1_OUTCOME_FAULT_TWO &&
                     GEN1_RESULT_REQUEST_ONE(got) <= GEN1_REQUEST_SWITCH &&
                     GEN1_RESULT_REQUEST_TWO(got) <= GEN1_REQUEST_SWITCH;
    tell("gen1_host_result", got == want && is_listed && unchanged(), got, want);
}

/* ---- from bytes ---- */

/* Changes one field of a lawful host. Returns the expected code. */
static uint8_t damage(gen1_host *host) {
    uint8_t at = (uint8_t)draw(2);
    switch (draw(9)) {
    case 0:
        host->room.battle.bytes[0] = (uint8_t)(4 + draw(252));
        return GEN1_ERROR_LOAD_VERSION;
    case 1:
        host->room.number = UINT32_MAX - draw(1000);
        return GEN1_ERROR_HOST_NUMBER;
    case 2:
        host->room.log_length = (uint16_t)(GEN1_LOG_ROOM + 1 + draw(1000));
        return GEN1_ERROR_HOST_LOG;
    case 3:
        host->room.chosen[at] = (uint8_t)(1 + draw(15));
        return at == 0 ? GEN1_ERROR_HOST_CHOICE_ONE : GEN1_ERROR_HOST_CHOICE_TWO;
    case 4:
        *(at == 0 ? &host->one.side : &host->two.side) = (uint8_t)(2 - at);
        return at == 0 ? GEN1_ERROR_HOST_TELLER_ONE : GEN1_ERROR_HOST_TELLER_TWO;
    case 5:
        host->ending = (uint8_t)(4 + draw(252));
        return GEN1_ERROR_HOST_ENDING;
    case 6:
        host->draw = (uint8_t)(3 + draw(253));
        return GEN1_ERROR_HOST_DRAW;
    case 7:
        *(at == 0 ? &host->may_cancel : &host->late_forfeits) = (uint8_t)(2 + draw(254));
        return GEN1_ERROR_HOST_RULES;
    default:
        *(at == 0 ? &host->room.forfeit : &host->room.unused[draw(3)]) = (uint8_t)(1 + draw(255));
        return GEN1_ERROR_HOST_UNUSED;
    }
}

static bool is_load_code(uint8_t code) {
    return code == 0 || (code >= GEN1_ERROR_LOAD_VERSION && code <= GEN1_ERROR_LOAD_REQUEST) ||
           (code >= GEN1_ERROR_HOST_NUMBER && code <= GEN1_ERROR_HOST_UNUSED);
}

static void try_host_load(void) {
    bool is_valid;
    gen1_host from = some_host(&is_valid);
    bool is_damaged = is_valid && one_in(2);
    uint8_t due = is_damaged ? damage(&from) : 0;
    gen1_host *host = block_of(0, &from, sizeof from);
    note();
    uint8_t got = gen1_host_load(host), want = is_valid ? due : got;
    bool is_right = is_load_code(got) && (got != 0 || is_valid ? unchanged() : changed_only(0, sizeof *host));
    if (got == 0) {
        const uint8_t *now = (const uint8_t *)host, *old = (const uint8_t *)&from;
        is_right &=
            memcmp(now + sizeof(gen1_battle), old + sizeof(gen1_battle), sizeof from - sizeof(gen1_battle)) == 0;
        is_right &= gen1_host_load(host) == 0;
    }
    tell("gen1_host_load", got == want && is_right, got, want);
}

try_call *const tries_of_hosts[] = {try_host_begin,  try_host_apply,  try_host_message,
                                    try_host_notice, try_host_number, try_host_awaited,
                                    try_host_result, try_host_load,   NULL};
