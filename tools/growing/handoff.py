#!/usr/bin/env python3
"""handoff.py PROGRAM GRAINS: one silo has so many registered grains, and a second one joins, to which its part goes by pages."""

import sys
from pathlib import Path

sys.path[:0] = [str(Path(__file__).parents[2] / "crates/directory_console/plain_silo")]
import lines
from silos import Mail, Silo


def tell(what, silo, took):
    now, most = silo.megabytes()
    print(f"{what:40} {took:8.3f} s, {now:7.1f} MB, {most:7.1f} at most", flush=True)


def first_pages(owner, asks):
    """The owner is asked for each range's first page by itself: for that long it does nothing else."""
    pages, took = [], []
    for line in asks:
        heard, seconds = owner.timed([line])
        pages += heard
        took.append(seconds)
    tell(f"the owner: {len(took)} first pages", owner, sum(took))
    print(f"{'the longest of them':40} {max(took):8.3f} s")
    return pages


def handoff(program, grains):
    owner, fresh = Silo(program, lines.SILO), Silo(program, lines.OTHER)
    mail = Mail([owner, fresh])
    owner.say(lines.start(0))
    _, took = owner.timed(lines.registered(grains))
    tell(f"the owner: {grains:,} registrations", owner, took)
    joined = f"joined 2 {fresh.name}"
    answers, took = owner.timed([joined, "see 2"])
    tell("the owner: the view is installed", owner, took)
    asks, _ = mail.sorted_out(fresh.say([f"joined 1 {owner.name}", joined, "see 2"]))
    before = owner.seconds(), fresh.seconds()
    mail.carry(answers + first_pages(owner, asks))
    tell("the owner: all pages", owner, owner.seconds() - before[0])
    tell("the new owner: all pages", fresh, fresh.seconds() - before[1])
    print(mail.told())
    kept, handed = owner.entries(), fresh.entries()
    if kept + handed != grains:
        raise SystemExit(f"not all came: {kept} and {handed}")
    print(f"{handed:,} entries were handed over")
    for silo in (owner, fresh):
        silo.end()


if __name__ == "__main__":
    handoff(sys.argv[1], int(sys.argv[2]))
