#!/usr/bin/env python3
"""Writes lines for `tools/bench silo` to standard output. The silo is 10.0.0.1:1000@1, alone in its directory, with the settings that
the program takes by itself; letters come from another one.

  lines.py start             it joins, sees its view, and recovers its ranges, in which nothing is
  lines.py registered LINES  so many grains are registered
  lines.py found LINES       and looked up, in another order
  lines.py unknown LINES     so many grains are looked up that nobody has
  lines.py hints 0           a thousand grains come into its cache
  lines.py cached LINES      and are looked up there
  lines.py lives LINES       activations of grain after grain wake, are firm, close, and have ended, four lines each

Or commands for Redis, as it reads them: `lines.py SET NAMES` and `lines.py GET NAMES` are about the grains that are registered and found."""

import sys
from hashlib import sha256

SILO, OTHER = "10.0.0.1:1000@1", "10.0.0.2:1000@1"
CIRCLE = 1 << 32
POINTS = 30
HINTS = 1000
# A number whose multiples go through all names before one comes again, if there are a power of ten.
SPREAD = 2_654_435_761


def letter(words, sender=OTHER):
    return f"letter {sender} {SILO} 1 {words}"


def grain(number):
    return f"user/grain-{number}"


def activation(number):
    return f"{OTHER}!{number}"


def start(_):
    yield f"joined 1 {SILO}"
    yield "see 1"
    places = sorted(int.from_bytes(sha256(f"{SILO}#{point}".encode()).digest()[:4]) for point in range(POINTS))
    for place, following in zip(places, places[1:] + places[:1]):
        yield letter(f"report {place}+{(following - place) % CIRCLE} last", SILO)


def registered(lines):
    for number in range(1, lines + 1):
        yield letter(f"register {number} {grain(number)} {activation(number)}")


def names_found(lines):
    return (number * SPREAD % lines + 1 for number in range(lines))


def found(lines):
    for number, name in enumerate(names_found(lines), 1):
        yield letter(f"find {number} {grain(name)}")


def unknown(lines):
    for number in range(1, lines + 1):
        yield letter(f"find {number} user/nobody-{number}")


def hints(_):
    for number in range(1, HINTS + 1):
        yield f"find {grain(number)}"
        yield letter(f"found {number} {grain(number)} {activation(number)}", SILO)


def cached(lines):
    for number in range(lines):
        yield f"find {grain(number * SPREAD % HINTS + 1)}"


def lives(lines):
    for count in range(1, lines // 4 + 1):
        yield f"wake {grain(count)}"
        yield letter(f"registered {2 * count - 1} {grain(count)} {SILO}!{count}", SILO)
        yield f"close {grain(count)}"
        yield letter(f"removed {2 * count}", SILO)


def redis(words):
    return f"*{len(words)}\r\n" + "\r\n".join(f"${len(word)}\r\n{word}" for word in words) + "\r"


def set_all(names):
    return (redis(["SET", grain(number), activation(number), "NX"]) for number in range(1, names + 1))


def get_all(names):
    return (redis(["GET", grain(name)]) for name in names_found(names))


KINDS = {
    "start": start,
    "registered": registered,
    "found": found,
    "unknown": unknown,
    "hints": hints,
    "cached": cached,
    "lives": lives,
    "SET": set_all,
    "GET": get_all,
}

if __name__ == "__main__":
    if len(sys.argv) not in (2, 3) or sys.argv[1] not in KINDS or not "".join(sys.argv[2:] or "0").isdecimal():
        print(f"usage: lines.py {'|'.join(KINDS)} [LINES]", file=sys.stderr)
        sys.exit(2)
    write = sys.stdout.write
    for line in KINDS[sys.argv[1]](int("".join(sys.argv[2:]) or 0)):
        write(line + "\n")
