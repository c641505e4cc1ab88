/*
 * Plays a battle of two players, each of which is a process at the other end of two pipes.
 *
 *     cc -O2 -I ../common room.c ../common/battle_file.c $(pkg-config --cflags --libs gen1) -o room
 *     ./room ../../tauros.txt 'COMMAND OF PLAYER 1' 'COMMAND OF PLAYER 2' [SECONDS]
 *
 * The first argument is a file with a battle as decimal numbers (../play.c); its choices are ignored. A player reads and writes lines:
 *
 *     ask NUMBER CHOICE ..   the number of the current pair, and the bytes of the choices that are offered for it
 *     taken | refused CODE   the result of the player's last line: a code of gen1_host_apply, or 255 for a line that is not a choice
 *     line TEXT              a line of the battle, as its side may see it: the foe's HP in 48ths
 *     NUMBER CHOICE          (from the player) a choice for a pair
 *
 * The battle draws the numbers of the file, so that a battle can be played again. A server passes new ones with each row (gen1.h).
 *
 * Neither player sees the other's choice before both have chosen. Any other line of a player is refused with a code, and changes nothing.
 * A player that floods the room is read no faster than the other, and lines that it does not read in time are dropped. For a player that
 * leaves, or does not choose within SECONDS (1 to 86,400; 10 by default), the room makes the first choice that is offered, so that every
 * battle ends. The room prints the battle's lines, and on standard error how often each player was refused, by code. After the battle it
 * closes a player's input and sends SIGTERM; a second later it kills the player.
 */
#define _POSIX_C_SOURCE 200809L
#include "battle_file.h"

#include <errno.h>
#include <fcntl.h>
#include <poll.h>
#include <signal.h>
#include <stdarg.h>
#include <stdlib.h>
#include <string.h>
#include <sys/wait.h>
#include <time.h>
#include <unistd.h>

enum { USUAL_PATIENCE = 10, MOST_PATIENCE = 86400, LINE_MOST = 32, READ_AT_ONCE = 4096 };

/* How often the room checks whether a player has ended before it kills it, and how many milliseconds it waits each time. */
enum { LOOKS = 100, LOOK_EVERY = 10 };

/* The code of a line that is not a pair's number and a choice; no function of gen1.h returns it. */
enum { RUBBISH = 255, CODES };

typedef struct player {
    uint8_t side;
    pid_t pid;
    int to, from;         /* the room's ends of both pipes; -1 once closed */
    char line[LINE_MOST]; /* the incomplete line so far; longer lines are cut, and so refused */
    size_t filled;
    long refused[CODES];
} player;

/* ---- writing to the players ---- */

/* Closes an end of a pipe, if it is open. */
static void close_end(int *end) {
    if (*end >= 0)
        close(*end);
    *end = -1;
}

/* Sends a line. If the player does not read, the line is dropped: the room never waits. */
static void send(player *to, const char *format, ...) {
    char text[GEN1_LINE_ROOM + 16];
    va_list arguments;
    va_start(arguments, format);
    int length = vsnprintf(text, sizeof text, format, arguments);
    va_end(arguments);
    if (to->to >= 0 && write(to->to, text, (size_t)length) < 0 && errno == EPIPE)
        close_end(&to->to);
}

/* Sends a player the lines of the last pair as its side may see them, and asks it for its choice, if it has to make one. */
static void tell(player *to, const gen1_host *at) {
    gen1_message message;
    char line[GEN1_LINE_ROOM], words[9 * 4 + 1] = "";
    uint8_t choices[9];
    size_t place = 0, length = 0;
    gen1_host_message(at, to->side, &message);
    while (gen1_next_line(message.log, message.log_length, &place, line, sizeof line, &length) == 0)
        send(to, "line %s", line);
    if ((gen1_host_awaited(at) & to->side) == 0)
        return;
    uint8_t count = gen1_choices(&at->room.battle, to->side, choices);
    for (int k = 0; k < count; k++)
        snprintf(words + strlen(words), sizeof words - strlen(words), " %d", choices[k]);
    send(to, "ask %lu%s\n", (unsigned long)message.number, words);
}

/* Prints the lines of the last pair, and sends both players theirs. The room's own log is for the host alone. */
static void tell_both(player players[2], const gen1_host *at) {
    char line[GEN1_LINE_ROOM];
    size_t place = 0, length = 0;
    while (gen1_next_line(at->room.log, at->room.log_length, &place, line, sizeof line, &length) == 0)
        fputs(line, stdout);
    tell(&players[0], at);
    tell(&players[1], at);
}

/* ---- reading from the players ---- */

/* Reads the two numbers of a line; returns whether it has exactly these. */
static bool read_line(const char *line, uint32_t *number, uint8_t *choice) {
    unsigned long pair;
    unsigned byte;
    int end = -1;
    if (strspn(line, "0123456789 ") != strlen(line) || sscanf(line, "%10lu %3u%n", &pair, &byte, &end) != 2 ||
        line[end] != '\0' || pair > UINT32_MAX || byte > 255)
        return false;
    *number = (uint32_t)pair;
    *choice = (uint8_t)byte;
    return true;
}

/* Handles a line of a player: it is accepted, or refused with a code. */
static void take_line(player players[2], player *from, gen1_host *at) {
    gen1_row row = {.kind = GEN1_ROW_SUBMIT, .side = from->side};
    uint32_t before = gen1_host_number(at);
    uint8_t code = RUBBISH;
    from->line[from->filled < LINE_MOST ? from->filled : LINE_MOST - 1] = '\0';
    if (from->filled < LINE_MOST && strlen(from->line) == from->filled &&
        read_line(from->line, &row.number, &row.choice))
        code = gen1_host_apply(at, &row);
    from->filled = 0;
    from->refused[code]++;
    if (code == 0)
        send(from, "taken\n");
    else
        send(from, "refused %d\n", code);
    if (gen1_host_number(at) != before)
        tell_both(players, at);
}

/* Reads what a player has sent, up to a limit at a time. */
static void listen_to(player players[2], player *from, gen1_host *at) {
    char bytes[READ_AT_ONCE];
    ssize_t count = read(from->from, bytes, sizeof bytes);
    if (count <= 0)
        close_end(&from->from);
    for (ssize_t k = 0; k < count; k++)
        if (bytes[k] == '\n')
            take_line(players, from, at);
        else if (from->filled < LINE_MOST)
            from->line[from->filled++] = bytes[k];
}

/* Ends the time of each player that has left, or, if the time is up, of each that has not chosen: its first choice is made. */
static void expire_missing(player players[2], gen1_host *at, bool is_time_up) {
    uint32_t before = gen1_host_number(at);
    for (int k = 0; k < 2; k++)
        if (is_time_up || players[k].from < 0) {
            gen1_row row = {.kind = GEN1_ROW_EXPIRE, .side = players[k].side, .number = before};
            gen1_host_apply(at, &row); /* it is refused if the side has chosen, or if the pair has ended */
        }
    if (gen1_host_number(at) != before)
        tell_both(players, at);
}

/* ---- the battle ---- */

/* Seconds of a clock that is never adjusted. */
static time_t now(void) {
    struct timespec it;
    clock_gettime(CLOCK_MONOTONIC, &it);
    return it.tv_sec;
}

/* Waits for either player until a time, and reads what they sent. */
static void listen_to_both(player players[2], gen1_host *at, time_t until) {
    struct pollfd ends[2] = {{.fd = players[0].from, .events = POLLIN}, {.fd = players[1].from, .events = POLLIN}};
    time_t left = until - now();
    if (poll(ends, 2, left > 0 ? (int)left * 1000 : 0) > 0)
        for (int k = 0; k < 2; k++)
            if (ends[k].revents != 0)
                listen_to(players, &players[k], at);
}

static void run_host(player players[2], gen1_host *at, int patience) {
    time_t until = now() + patience;
    tell_both(players, at);
    while (GEN1_RESULT_OUTCOME(gen1_host_result(at)) == GEN1_OUTCOME_ONGOING) {
        uint32_t number = gen1_host_number(at);
        expire_missing(players, at, now() >= until);
        if (gen1_host_number(at) == number)
            listen_to_both(players, at, until);
        if (gen1_host_number(at) != number)
            until = now() + patience;
    }
}

/* ---- processes ---- */

static void or_stop(bool is_done, const char *what) {
    if (!is_done) {
        perror(what);
        exit(1);
    }
}

/* Starts a player's process, in its own process group, with pipes that the other player does not inherit. */
static player begin(uint8_t side, const char *command) {
    int to[2], from[2];
    or_stop(pipe(to) == 0 && pipe(from) == 0, "pipe");
    fcntl(to[1], F_SETFD, FD_CLOEXEC);
    fcntl(from[0], F_SETFD, FD_CLOEXEC);
    fcntl(to[1], F_SETFL, O_NONBLOCK);
    pid_t pid = fork();
    or_stop(pid >= 0, "fork");
    setpgid(pid, pid); /* in both processes, so that it is done whichever runs first */
    if (pid == 0) {
        signal(SIGPIPE, SIG_DFL);
        dup2(to[0], STDIN_FILENO);
        dup2(from[1], STDOUT_FILENO);
        close(to[0]);
        close(from[1]);
        execl("/bin/sh", "sh", "-c", command, (char *)NULL);
        _exit(127);
    }
    close(to[0]);
    close(from[1]);
    return (player){.side = side, .pid = pid, .to = to[1], .from = from[0]};
}

/* Gives a process time to end. It is not reaped yet, so that its process ID stays reserved. */
static void let_end(pid_t pid) {
    siginfo_t it = {0};
    for (int look = 0;
         look < LOOKS && waitid(P_PID, (id_t)pid, &it, WEXITED | WNOHANG | WNOWAIT) == 0 && it.si_pid == 0; look++)
        poll(NULL, 0, LOOK_EVERY);
}

/* Ends a player's process and the processes that it started, and prints how often it was refused. */
static void end(player *of) {
    kill(-of->pid, SIGTERM);
    close_end(&of->to);
    close_end(&of->from);
    let_end(of->pid);
    kill(-of->pid, SIGKILL);
    waitpid(of->pid, NULL, 0);
    for (int code = 1; code < CODES; code++)
        if (of->refused[code] > 0)
            fprintf(stderr, "side %d: refused %d: %ld\n", of->side, code, of->refused[code]);
}

/* The number of seconds in an argument, or 0 if it is not a number from 1 to MOST_PATIENCE. */
static int seconds_of(const char *word) {
    bool is_number = word[0] != '\0' && strspn(word, "0123456789") == strlen(word) && strlen(word) <= 5;
    long seconds = is_number ? strtol(word, NULL, 10) : 0;
    return seconds <= MOST_PATIENCE ? (int)seconds : 0;
}

int main(int count, char **words) {
    battle_file file;
    gen1_host at;
    int patience = count == 5 ? seconds_of(words[4]) : USUAL_PATIENCE;
    if (count < 4 || count > 5 || patience < 1) {
        fprintf(stderr, "usage: room BATTLE PLAYER PLAYER [SECONDS]\nSECONDS are 1 to %d\n", MOST_PATIENCE);
        return 2;
    }
    FILE *from = fopen(words[1], "r");
    if (from == NULL || !read_battle(from, &file)) {
        fprintf(stderr, "error: %s is not a battle\n", words[1]);
        return 2;
    }
    fclose(from);
    uint32_t fault = gen1_new(&at.room.battle, &file.one, &file.two, file.seed, file.rules, file.limit);
    if (fault != 0) {
        print_team_fault(fault);
        return 1;
    }
    gen1_host_begin(&at, 1, 0, 0);
    signal(SIGPIPE, SIG_IGN);
    player players[2] = {begin(GEN1_ONE, words[2]), begin(GEN1_TWO, words[3])};
    run_host(players, &at, patience);
    fflush(stdout);
    end(&players[0]);
    end(&players[1]);
    return 0;
}
