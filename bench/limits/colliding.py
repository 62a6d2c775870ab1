"""Prints a docket whose residents' names collide under the toolchain's default hasher, whose seed is fixed: hashed byte by
byte, as a `Vec` of bytes is, all of them start in one group of a table for as many. Each of many programmes lists them all.
With the word `plain` the names are as many others of one length."""
import sys

PROGRAMMES = 200
RESIDENTS = 4000
LETTERS = b"abcdefghijklmnopqrstuvwxyz0123456789"
LENGTH = 7
# The bits of a hash that choose a group of a table for so many names.
GROUP = 0x1FF
MASK = 2**64 - 1
SEED = 0x243F6A8885A308D3
MULTIPLIER = 0x9E3779B97F4A7C15


def folded(state, word, count):
    product = (state ^ word) * (MULTIPLIER ^ (2 * count))
    return (product & MASK) ^ (product >> 64)


def byte_after(state, byte):
    return folded(state, byte * 0x010101, 1)


def names(wanted):
    found = []
    start = folded(SEED, LENGTH, 8)
    number = 0
    while len(found) < wanted:
        front = bytes(LETTERS[number // 36**k % 36] for k in range(LENGTH - 2))
        number += 1
        state = start
        for byte in front:
            state = byte_after(state, byte)
        for next_byte in LETTERS:
            near = byte_after(state, next_byte)
            for last in LETTERS:
                hashed = byte_after(near, last)
                if not colliding or (hashed ^ hashed >> 32) & GROUP == 0:
                    found.append((front + bytes([next_byte, last])).decode())
    return found[:wanted]


colliding = sys.argv[1:] != ["plain"]
residents = names(RESIDENTS)
for programme in range(PROGRAMMES):
    print("Q", f"p{programme}", 1, sep=",")
for programme in range(PROGRAMMES):
    print("P", f"p{programme}", *residents, sep=",")
for resident in residents:
    print("R", resident, sep=",")
