"""Counts in grains: example.py SOCKET GRAIN keeps a grain active for as long as it may, and takes it back when it is lost."""

import sys
import time

from grain_directory import Agent, Lost, Refused, Taken


def count(work):
    """The grain's work: a step each second, each tested before its effect."""
    step = 0
    while not work.ends.wait(1):
        work.check()
        step += 1
        print(f"{work.activation} {work.grain} token {work.token} step {step}", flush=True)


def main(path, grain):
    agent = Agent(path)
    while True:
        try:
            with agent.activate(grain) as work:
                print(f"{work.activation} is firm", flush=True)
                count(work)
        except Taken as taken:
            print(taken, flush=True)
            time.sleep(1)
        except (Lost, Refused, OSError) as fault:
            print(f"{type(fault).__name__}: {fault}", flush=True)
            time.sleep(1)


if __name__ == "__main__":
    if len(sys.argv) != 3:
        sys.exit("usage: example.py SOCKET GRAIN")
    main(*sys.argv[1:])
