#!/usr/bin/env python3
"""Prints what `dispatch live --alarms` prints: live.py TRACK < BATCH"""

import sys

import rbc


def again(number, call):
    """Calls again, once, where there was no memory: nothing was changed. A radio block centre frees some first."""
    try:
        return call()
    except rbc.NoMemory:
        print(f"live: no memory at line {number}, tried again", file=sys.stderr)
        return call()


def text(alarm):
    return f"{alarm.engine} {alarm.kind}" + (f" {alarm.number}" if alarm.kind != "place" else "")


def order(alarm):
    return alarm.engine, rbc.ALARMS.index(alarm.kind), alarm.number


def print_changes(number, old, now):
    """The alarms of only one of two lists."""
    for alarm in sorted(set(old) ^ set(now), key=order):
        print(f"{number} {'raised' if alarm in now else 'cleared'} {text(alarm)}")


def run(track):
    with again(0, lambda: rbc.Desk(track)) as desk:
        old = []
        for number, line in enumerate(sys.stdin.buffer, 1):
            reply = again(number, lambda: desk.feed(line.removesuffix(b"\n")))
            if reply.refused:
                print(f"{number} refused {reply.refused}")
            else:
                print(f"{number} ok {len(reply.messages)}")
            for message in reply.messages:
                print(f"{message.engine} {number} {message.bytes.hex().upper()}")
            now = again(number, desk.alarms)
            print_changes(number, old, now)
            old = now


def main():
    if len(sys.argv) != 2:
        sys.exit("usage: live.py TRACK < BATCH")
    try:
        with open(sys.argv[1], "rb") as file:
            run(file.read())
    except (OSError, rbc.Fault) as error:
        sys.exit(f"live: {error}")


if __name__ == "__main__":
    main()
