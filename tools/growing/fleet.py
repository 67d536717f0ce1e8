#!/usr/bin/env python3
"""fleet.py PROGRAM SILOS: so many silos start at once: each is told of all joins, and installs the last view."""

import sys

from silos import Mail, Silo, name_of


def fleet(program, count):
    silos = [Silo(program, name_of(number)) for number in range(count)]
    told = [f"joined {version} {silo.name}" for version, silo in enumerate(silos, 1)] + [f"see {count}"]
    mail = Mail(silos)
    mail.carry([answer for silo in silos for answer in silo.say(told)])
    print(f"{count:4} silos: {mail.told()}; {max(silo.seconds() for silo in silos):.3f} s at most in one process", flush=True)
    for silo in silos:
        silo.entries()
        silo.end()


if __name__ == "__main__":
    fleet(sys.argv[1], int(sys.argv[2]))
