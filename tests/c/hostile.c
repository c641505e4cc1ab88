/*
 * Calls each function of the library with arguments out of their ranges, and compares the code that is returned, and all memory, with
 * what include/gen1.h says.
 *
 *     cc -I include -I tests/c tests/c/hostile*.c tests/c/lawful.c tests/c/guarded.c crates/gen1_c/out/libgen1_c.a -o hostile
 *     ./hostile CALLS SEED      CALLS of each function
 *
 * The expected code is computed here, by the header. A battle is a lawful one before, during or after play, or any 384 bytes. For any
 * bytes the code is not checked, but no memory except the battle's may change, and none at all if the code is not 0. Status 0 if every
 * call returned what it has to, 1 if one did not, 2 if the arguments are wrong.
 */
#include "lawful.h"

#include <stdio.h>
#include <stdlib.h>

/* The functions that each try one call, by file; each list ends with NULL. */
extern try_call *const tries_of_battles[],
    *const tries_of_batches[], *const tries_of_texts[], *const tries_of_views[], *const tries_of_rooms[],
                                                                                     *const tries_of_odds[],
                                                                                         *const tries_of_players[],
                                                                                             *const tries_of_hosts[];

static try_call *const *const tries[] = {tries_of_battles, tries_of_batches, tries_of_texts,   tries_of_views,
                                         tries_of_rooms,   tries_of_odds,    tries_of_players, tries_of_hosts};

int main(int count, char **words) {
    if (count != 3) {
        fprintf(stderr, "usage: hostile CALLS SEED\n");
        return 2;
    }
    long calls = strtol(words[1], NULL, 10);
    begin_guarded(strtoull(words[2], NULL, 10));
    for (int place = 0; place < MET; place++)
        meet(place);
    for (long call = 0; call < calls; call++) {
        meet((int)draw(MET));
        for (size_t at = 0; at < sizeof tries / sizeof tries[0]; at++)
            for (try_call *const *it = tries[at]; *it != NULL; it++)
                (*it)();
    }
    return end_guarded();
}
