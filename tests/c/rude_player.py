#!/usr/bin/env python3
"""A player for examples/c/room that sends rubbish and floods before each of its choices.

    rude_player.py CHOICE ..

Before each choice it sends lines that must all be refused: seven that are not a choice (code 255), and the first time 3,000 more; a
choice for the next pair (code 52); and one that is never offered (code 54).
"""
import sys

RUBBISH = (b"hello", b"x" * 100_000, b"\0\0", b"4294967296 17", b"-1 17", b"0 17 17", b"")
FLOOD = 3000


def send(line):
    sys.stdout.buffer.write(line + b"\n")


def main():
    choices = iter(sys.argv[1:])
    flood = FLOOD
    for line in sys.stdin:
        if not line.startswith("ask "):
            continue
        number = int(line.split()[1])
        for rubbish in (*RUBBISH, *[b"y"] * flood):
            send(rubbish)
        flood = 0
        send(b"%d 17" % (number + 1))
        send(b"%d 99" % number)
        send(b"%d %d" % (number, int(next(choices))))
        sys.stdout.flush()


main()
