#!/usr/bin/env python3
"""Prints calls that make the longest views there are: 1,025 words of a deliverer and 3,072 of a register.

tests/lists/record puts the Rust's answers to them.
"""

from bounds import opening


def view(what, longest):
    """Into an output one word too short, into one of exactly its length, and into any."""
    print(f"view_{what} {longest - 1}\nview_{what} {longest}\nview_{what}")


def deliverer():
    print("\n# E of 512, all listed: 512 pairs and the entries.")
    opening(1, 512, "0 0 0 0 1000 2")
    for second in range(1, 513):
        print(f"take 0 {second} {1000 * second} {1000 * second} 1 p:9")
    view("deliverer p:9", 1025)


def register():
    print("\n# A ring of 256, all held in each class: 768 generations. The last ones are taken after a step back by one bucket.")
    opening(1, 256, "127000 127000 127000 127000 1000 2")
    meters = [(7, "f:1"), (8, "p:1"), (9, "r")]
    for reading, stamps in [(1000000, range(873000, 1128000, 1000)), (999000, [872000])]:
        for fingerprint, who in meters:
            for stamp in stamps:
                print(f"take 0 {fingerprint} {stamp} {reading} 1 {who}")
    view("register 0", 3072)
    view("deliverer r", 513)


if __name__ == "__main__":
    print("# The longest views, with outputs that are just long enough.")
    print("# python3 tests/lists/longest.py | build/oracle record")
    deliverer()
    register()
