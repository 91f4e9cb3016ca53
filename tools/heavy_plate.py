#!/usr/bin/env python3
"""heavy_plate.py [--workers N] [--objects N] [--pieces N] [--layer MM]: a script for `plater run` that is much to compute and little to write.

Boxes of 38 by 38 by 92 mm stand beside each other, each wall divided into that many strips of two facets, so that each layer
cuts many facets, while its one loop has four corners. Session 1 loads, moves, applies and exports them. It needs Python 3 alone.
"""
import argparse

SIDE, HEIGHT, STEP, ACROSS = 38, 92, 40, 4


def main():
    words = argparse.ArgumentParser(description=__doc__.splitlines()[0], formatter_class=argparse.ArgumentDefaultsHelpFormatter)
    words.add_argument("--workers", type=int, choices=range(9), default=0, help="workers beside the session")
    words.add_argument("--objects", type=int, choices=range(1, 17), default=16, help="boxes on the plate")
    words.add_argument("--pieces", type=int, default=1500, help="strips of a wall")
    words.add_argument("--layer", default="0.05", help="layer height in millimetres")
    print_script(words.parse_args())


def print_script(of):
    print("plater 1")
    if of.workers:
        print("workers %d" % of.workers)
    print("data box\nsolid box")
    for corners in facets(of.pieces):
        print("facet normal 0 0 0\nouter loop")
        for corner in corners:
            print("vertex", *map(numeral, corner))
        print("endloop\nendfacet")
    print("endsolid box\n.end")
    for key, value in (("layer_height", of.layer), ("perimeters", 1), ("fill_density", 0), ("top_solid_layers", 0),
                       ("bottom_solid_layers", 0), ("skirts", 0)):
        print("1 set %s %s" % (key, value))
    for k in range(of.objects):
        print("1 load part%d box\n1 move %d 0 %d %d" % (k, k, 2 + STEP * (k % ACROSS), 2 + STEP * (k // ACROSS)))
    print("1 apply\n1 export")


def facets(pieces):
    """The facets of a box: the strips of its walls, and its bottom and top as fans round their middle."""
    ring = outline(pieces)
    middle = (SIDE / 2, SIDE / 2)
    for a, b in zip(ring, ring[1:] + ring[:1]):
        yield (*a, 0), (*b, 0), (*b, HEIGHT)
        yield (*a, 0), (*b, HEIGHT), (*a, HEIGHT)
        yield (*b, 0), (*a, 0), (*middle, 0)
        yield (*a, HEIGHT), (*b, HEIGHT), (*middle, HEIGHT)


def outline(pieces):
    """The corners of the strips round the box, counterclockwise."""
    steps = [SIDE * i / pieces for i in range(pieces)]
    return ([(s, 0) for s in steps] + [(SIDE, s) for s in steps] + [(SIDE - s, SIDE) for s in steps]
            + [(0, SIDE - s) for s in steps])


def numeral(length):
    return ("%.4f" % length).rstrip("0").rstrip(".") or "0"


if __name__ == "__main__":
    main()
