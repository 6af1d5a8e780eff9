"""Writes a file to standard output in pieces of odd sizes, each by itself, so that its reader meets many short reads."""

import os
import sys
import time

SIZES = (1, 3, 7, 61, 299, 997, 2_003, 4_099)
FIRST_PAUSE, PAUSE = 0.2, 0.003  # the first is long, so that no reader is late for the first piece


def main():
    with open(sys.argv[1], "rb") as file:
        text = file.read()
    at = turn = 0
    while at < len(text):
        piece = text[at : at + SIZES[turn % len(SIZES)]]
        at += os.write(1, piece)
        time.sleep(PAUSE if turn else FIRST_PAUSE)
        turn += 1


main()
