#!/usr/bin/env python3
"""Plays the battle that standard input describes, and prints its lines as `battle_tool run` does.

    cc -shared -o libgen1.so -Wl,--whole-archive crates/gen1_c/out/libgen1_c.a -Wl,--no-whole-archive
    python3 examples/python/play.py ./libgen1.so < examples/tauros.txt

The input is decimal numbers separated by white space, as described in examples/c/play.c.
"""

import sys

import gen1


def read_member(numbers):
    species, level = next(numbers), next(numbers)
    dvs = [next(numbers) for _ in range(4)]
    exp = [next(numbers) for _ in range(5)]
    moves = [(next(numbers), next(numbers)) for _ in range(4)]
    return gen1.member(species, level, dvs, exp, moves)


def read_team(numbers):
    return gen1.team([read_member(numbers) for _ in range(next(numbers))])


def main():
    library = gen1.Library(sys.argv[1])
    numbers = map(int, sys.stdin.read().split())
    rules, limit = next(numbers), next(numbers)
    seed = [next(numbers) for _ in range(10)]
    one, two = read_team(numbers), read_team(numbers)
    out = sys.stdout.buffer
    try:
        battle = library.battle(one, two, seed, rules, limit)
        for pair, choice in enumerate(numbers):
            try:
                out.write(library.lines(battle.update(choice, next(numbers))))
            except gen1.Refused as refused:
                out.flush()
                sys.exit("error: pair %d refused %d" % (pair, refused.args[0]))
    except gen1.TeamFault as fault:
        sys.exit("error: team %d place %d refusal %d" % fault.args)


main()
