#!/usr/bin/env python3
"""Draws what stands after each input of a batch, and prints what a picture has that none may have: bench/pictures.py PROGRAM TRACK < BATCH"""
import re
import subprocess
import sys
import xml.etree.ElementTree as ElementTree

SVG = "{http://www.w3.org/2000/svg}"
ELEMENTS = {SVG + name for name in ("svg", "title", "desc", "defs", "pattern", "rect", "circle", "g", "text", "line", "polygon")}

RED = "#A30000"  # the words of what a train is not told
# the polygons in the group of a train: an octagon that is answered, or not, and the train
POLYGONS = {"#D55E00": "filled", "#FFFFFF": "open", "#1A1A1A": "arrow"}


def drawn_states(program, track, batch):
    """What pictures have that none may have: those of what stands after each input of a batch."""
    found = set()
    for after in range(batch.count(b"\n") + 1):
        words = [program, "picture", "--track", track, "--after", str(after)]
        done = subprocess.run(words, input=batch, capture_output=True, timeout=60)
        found |= {f"status {done.returncode}"} if done.returncode or done.stderr else misdrawn(done.stdout)
    return found


def misdrawn(drawn):
    """What a picture has that none may have: other elements, coordinates outside of it, or what is no XML."""
    try:
        picture = ElementTree.fromstring(drawn)
    except ElementTree.ParseError as error:
        return {str(error)}
    width, height = picture.get("viewBox").split()[2:]
    found = {element.tag for element in picture.iter()} - ELEMENTS
    found |= {f"x {x}" for x in set(re.findall(rb' x[12]?="([^"]*)"', drawn)) if not 0 <= float(x) <= float(width)}
    found |= {f"y {y}" for y in set(re.findall(rb' y[12]?="([^"]*)"', drawn)) if not 0 <= float(y) <= float(height)}
    for point in {point for points in re.findall(rb' points="([^"]*)"', drawn) for point in points.split()}:
        x, y = (float(at) for at in point.split(b","))
        if not (0 <= x <= float(width) and 0 <= y <= float(height)):
            found.add(f"point {point}")
    return found


def signs_of(drawn):
    """What a picture says: its title, its texts above the legend, and for each stop, train and restriction the title of
    its group and, on the next line, the words and signs in it. The halos behind words are left out."""
    picture = ElementTree.fromstring(drawn)
    lines = [picture.find(f"{SVG}title").text, *map(sign, picture.findall(f"{SVG}text"))]
    for group in picture.iter(f"{SVG}g"):
        if (title := group.find(f"{SVG}title")) is not None:
            lines += [title.text, "  " + "; ".join(filter(None, map(sign, group)))]
    return "".join(f"{line}\n" for line in lines).encode()


def sign(element):
    """What an element of a picture says, if anything."""
    if element.tag == f"{SVG}text" and not element.get("aria-hidden"):
        return "red " * (element.get("fill") == RED) + element.text
    if element.tag == f"{SVG}polygon":
        return POLYGONS[element.get("fill")]
    return "post" if element.tag == f"{SVG}line" and element.get("stroke-width") == "3" else ""


if __name__ == "__main__":
    faults = drawn_states(sys.argv[1], sys.argv[2], sys.stdin.buffer.read())
    print("".join(f"{fault}\n" for fault in sorted(faults)), end="")
    sys.exit(1 if faults else 0)
