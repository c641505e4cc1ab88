/*
 * A player for the room. It makes the choices on its command line, one after the other, and then always the first one offered.
 *
 *     cc -O2 player.c -o player
 *     ./room ../../tauros.txt './player 17 17' ./player
 */
#include <stdio.h>
#include <stdlib.h>

int main(int count, char **words) {
    char line[256];
    int next = 1;
    while (fgets(line, sizeof line, stdin) != NULL) {
        unsigned long number;
        int first;
        if (sscanf(line, "ask %lu %d", &number, &first) != 2)
            continue;
        printf("%lu %d\n", number, next < count ? atoi(words[next++]) : first);
        fflush(stdout);
    }
    return 0;
}
