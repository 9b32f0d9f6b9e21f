#!/usr/bin/env python3
"""Prints what examples/c/desk.c prints: desk.py TRACK < BATCH

It feeds a batch, says why lines were refused, and prints at the end what the desk knows.
"""

import sys

import rbc


def print_state(desk):
    for train in desk.trains():
        where = "no place"
        if train.place:
            where = f"line {train.place.line}, {train.place.from_}-{train.place.to}, facing {train.place.facing}"
        print(f"train {train.engine}: length {train.length}, stamp {train.stamp}, {where}, ", end="")
        print(f"holds {train.stops} stop and {train.restrictions} restriction identifiers")
    for stop in desk.stops():
        print(f"stop {stop.number}: {stop.line}:{stop.from_}-{stop.to}")
    for one in desk.restrictions():
        print(f"restriction {one.number}: {one.line}:{one.from_}-{one.to} {one.ways} {one.speed} {one.front}")
    for one in desk.outstanding():
        number = f" {one.number}" if one.number else ""
        print(f"waiting: train {one.engine}, identifier {one.identifier}, stamp {one.stamp}, {one.kind}{number}")


def run(track):
    print(f"rules {rbc.rules()}")
    report = rbc.check(track)
    if report.refused:
        print(report.text, end="")
        sys.exit(1)
    with rbc.Desk(track) as desk:
        for number, line in enumerate(sys.stdin.buffer, 1):
            line = line.removesuffix(b"\n")
            if desk.feed(line).refused:
                print(f"line {number}: {desk.explain(line)}", end="")
        print_state(desk)


def main():
    if len(sys.argv) != 2:
        sys.exit("usage: desk.py TRACK < BATCH")
    try:
        with open(sys.argv[1], "rb") as file:
            run(file.read())
    except (OSError, rbc.Fault) as error:
        sys.exit(f"desk: {error}")


if __name__ == "__main__":
    main()
