/*
 * Prints the damage of each move of each member of team one to each member of team two, as a table.
 *
 *     cc -O2 -I ../common damage.c ../common/battle_file.c $(pkg-config --cflags --libs gen1) -o damage
 *     ./damage ours.txt theirs.txt
 *     ./damage < ../../tauros.txt
 *
 * The arguments are files with teams as Pokemon Showdown's team builder exports them. Without arguments the input is a battle as decimal
 * numbers (../play.c has the format), whose choices are ignored. Both members are at full HP and have just been sent out.
 *
 * A row has the move; the least and the most damage of a usual hit, with percentages of the foe's HP; the same for a critical hit; how
 * many usual hits are enough in the worst case; and how many of 256 draws hit and are critical. For a move without damage, the row has
 * how many of 256 draws hit, if it takes the hit test.
 */
#include "battle_file.h"

/* Prints the least and the most damage, and their percentages of the foe's HP. */
static void print_range(const char *before, const gen1_damages *it, uint16_t hp) {
    uint16_t least = it->numbers[0], most = it->numbers[it->count - 1];
    printf("%s%3d to %3d, %3d to %3d%%", before, least, most, least * 100 / hp, most * 100 / hp);
}

static void print_row(const gen1_odds *odds, uint8_t move, uint16_t hp) {
    printf("  move %3d: ", move);
    if (odds->usual.count == 0 || odds->critical.count == 0) {
        printf("no usual damage (code %d)", odds->usual.count == 0 ? odds->usual.code : odds->critical.code);
        if (gen1_takes_hit_test(move) == 1)
            printf("; %d of 256 hit\n", odds->hit_draws);
        else
            puts("; no hit test");
        return;
    }
    uint16_t least = odds->usual.numbers[0];
    print_range("", &odds->usual, hp);
    print_range("; critical ", &odds->critical, hp);
    if (least == 0)
        printf("; no number of hits is enough");
    else
        printf("; %d hits", (hp + least - 1) / least);
    printf("; %d of 256 hit, %d of 256 critical\n", odds->hit_draws, odds->critical_draws);
}

/* Prints the table of a member against a foe with this many HP. */
static void print_table(const gen1_member *user, const gen1_member *foe, uint16_t hp) {
    gen1_odds odds;
    printf("species %d at level %d on species %d at level %d, %d HP\n", user->species, user->level, foe->species,
           foe->level, hp);
    for (int at = 0; at < 4; at++)
        if (gen1_odds_between(user, foe, user->moves[at], &odds) == 0)
            print_row(&odds, user->moves[at], hp);
}

/* Reads both teams, from two text files or from standard input; prints errors. */
static bool read_teams(int count, char **words, battle_file *to) {
    *to = (battle_file){.limit = GEN1_LIMIT};
    if (count == 3)
        return read_team_text(words[1], &to->one) && read_team_text(words[2], &to->two);
    bool is_read = count == 1 && read_battle(stdin, to);
    if (!is_read)
        fputs(count == 1 ? "error: input\n" : "usage: damage [OURS THEIRS]\n", stderr);
    return is_read;
}

int main(int count, char **words) {
    battle_file file;
    gen1_spectator spectator;
    if (!read_teams(count, words, &file))
        return 1;
    /* This checks both teams before anything is printed, and the spectator knows the HP of all members. */
    uint32_t fault = gen1_spectator_begin(&spectator, &file.one, &file.two);
    if (fault != 0) {
        print_team_fault(fault);
        return 1;
    }
    for (int one = 0; one < file.one.count; one++)
        for (int two = 0; two < file.two.count; two++)
            print_table(&file.one.members[one], &file.two.members[two], spectator.sides[1].members[two].hp);
    return 0;
}
