#!/usr/bin/env python3
"""Prints calls that fill each of the largest settings exactly and go one past it, and that crowd slots from one of them.

tests/lists/record puts the Rust's answers to them.
"""

LIMITS = "1000000 1000000 1000000 1000000 1000000"


def opening(places, pairs, windows, units="0 0", limits=LIMITS):
    print(f"open 1 {places} {pairs} {units} {limits}  {windows} empty")


def one_generation(fingerprints):
    """Takes into the first generation of 1,024 slots."""
    opening(1, 2, "0 0 0 0 1000 1024")
    for fingerprint in fingerprints:
        print(f"take 0 {fingerprint} 5000 5000 1 f:1")


def slots():
    print("\n# S of 1,024: a generation holds 768 fingerprints and no more.")
    # Multiples crowd together, so that probing goes far and round the end.
    one_generation(341 * number for number in range(1, 770))
    print("held f:1\ncontains_hash 0 261888\ncontains_hash 0 262229")


def crowd():
    print("\n# S of 1,024 with fingerprints for which probing starts at one slot: the last ones lie far on, and round the end.")
    one_generation(1024 * number + 1000 for number in range(1, 201))
    print("judge 0 205800 5000 5000 1 f:1\ntake 0 2024 5000 5000 1 f:1\njudge 0 206824 5000 5000 1 f:1")
    print("contains_hash 0 205800\ncontains_hash 0 206824\ndump 0")


def pairs():
    print("\n# E of 512: a place lists 512 seconds and no more, while expire frees nothing.")
    opening(1, 512, "0 0 0 0 1000 2")
    for second in range(1, 514):
        print(f"take 0 {second} {1000 * second} {1000 * second} 1 p:9")
    print("held p:9\nexpire 513000\nheld p:9\ntake 0 514 514000 514000 1 p:9\nclass 1")


def places():
    print("\n# P of 64, units of 4,096: a class has 64 holders and no more.")
    opening(64, 2, "0 0 0 0 1000 128", units="4096 4096")
    for who in range(1, 66):
        print(f"take 0 {who} 5000 5000 1 f:{who}")
    print("class 0\ntake 0 66 5000 5000 1 x:0\ntake 0 67 5000 5000 1 p:1\nclass 1")


def ring():
    print("\n# A ring of 256: every bucket that one clock allows held at once, then all swept.")
    opening(1, 512, "127000 127000 127000 127000 1000 2")
    for step in range(0, 255):
        print(f"take 0 7 {1000000 + 1000 * (step - 127)} 1000000 1 r")
    print("held r\nsweep 0 2000000\nfloor 0\nexpire 2000000\nheld r\nclass 2")


if __name__ == "__main__":
    print("# Each of the largest settings filled exactly, and one past it.")
    print("# python3 tests/lists/bounds.py | build/oracle record")
    slots()
    crowd()
    pairs()
    places()
    ring()
