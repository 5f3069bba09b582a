#!/usr/bin/env python3
"""Meshes for the benches, as ASCII STL in mm, counterclockwise as seen from outside.

usage: bench/meshes.py KIND NUMBER [HEIGHT]     writes the mesh to standard output

KIND       NUMBER      the mesh, HEIGHT mm high, by default 80
sphere     facets      a ball, or an ellipsoid for another height
vase       facets      a hollow vase with a floor, its wall 3 mm thick and wavy
prism      sides       one closed outline of that many sides
gear       sides       the same, wavy: sides of every direction, and as high as the others
parts      parts       that many boxes beside each other, each an outline of its own
lattice    holes       a plate with about that many square holes, each an outline of its own
open       parts       boxes without one side: as many loose chains, each closed by itself
slits      slits       a prism with that many open slits: as many loose chains, joined into one outline
first      number      the first column that 'cura_slice gen NUMBER' draws, of 51,324 facets; 60 mm high there
second     number      the second one
"""
import math
import sys

MIDDLE = 100.0


def text(facet):
    """A facet, its three corners, as ASCII STL."""
    corners = "".join("vertex %.4f %.4f %.4f\n" % corner for corner in facet)
    return f"facet normal 0 0 0\nouter loop\n{corners}endloop\nendfacet\n"


def sphere(facets, height):
    """About that many facets: 2 * segments * (rings - 1)."""
    rings = max(3, round(math.sqrt(facets / 4)))
    segments = max(3, round(facets / (2 * (rings - 1))))

    def corner(ring, segment):
        down, about = math.pi * ring / rings, 2 * math.pi * (segment % segments) / segments
        x = MIDDLE + 80 * math.sin(down) * math.cos(about)
        y = MIDDLE + 80 * math.sin(down) * math.sin(about)
        return (x, y, height / 2 * (1 - math.cos(down)))

    for ring in range(rings):
        for segment in range(segments):
            a, b = corner(ring, segment), corner(ring, segment + 1)
            c, d = corner(ring + 1, segment + 1), corner(ring + 1, segment)
            if ring + 1 < rings:
                yield (a, c, d)
            if ring > 0:
                yield (a, b, c)


def turned(rings, segments, corner, outwards):
    """The sides of a body that is round: corners by ring, from the lowest up, and by segment."""
    for ring in range(rings):
        for segment in range(segments):
            a, b = corner(ring, segment), corner(ring, (segment + 1) % segments)
            c, d = corner(ring + 1, (segment + 1) % segments), corner(ring + 1, segment)
            for side in ((a, b, c), (a, c, d)):
                yield side if outwards else side[::-1]


def between(outer, inner, up):
    """The rim between two rings of as many corners."""
    for k in range(len(outer)):
        a, b = outer[k], outer[(k + 1) % len(outer)]
        c, d = inner[(k + 1) % len(inner)], inner[k]
        for side in ((a, b, c), (a, c, d)):
            yield side if up else side[::-1]


def vase(facets, height):
    """About that many facets: 4 * rings * segments, rim and floor left out."""
    rings = max(2, round(math.sqrt(facets / 10)))
    segments = max(24, round(facets / (4 * rings)))
    floor = min(3.0, height / 4)

    def corner(z, segment, thick):
        about = 2 * math.pi * segment / segments
        round_it = 50 + 15 * math.sin(2 * math.pi * z / 80) + 2 * math.sin(12 * about + z / 20) - thick
        return (MIDDLE + round_it * math.cos(about), MIDDLE + round_it * math.sin(about), z)

    outer = lambda ring, segment: corner(height * ring / rings, segment, 0.0)
    inner = lambda ring, segment: corner(floor + (height - floor) * ring / rings, segment, 3.0)
    whole = lambda at, ring: [at(ring, segment) for segment in range(segments)]
    yield from turned(rings, segments, outer, True)
    yield from turned(rings, segments, inner, False)
    yield from between(whole(outer, rings), whole(inner, rings), True)
    for at, z, up in ((outer, 0.0, False), (inner, floor, True)):
        ring = whole(at, 0)
        for k in range(segments):
            ends = ((MIDDLE, MIDDLE, z), ring[k], ring[(k + 1) % segments])
            yield ends if up else ends[::-1]


def wall(a, b, height):
    """A side from the bed up, seen from the right of a to b."""
    top = lambda at: (at[0], at[1], height)
    bed = lambda at: (at[0], at[1], 0.0)
    yield (bed(a), bed(b), top(b))
    yield (bed(a), top(b), top(a))


def lid(outline, height, up):
    """A fan over a convex outline."""
    for a, b in zip(outline[1:], outline[2:]):
        ends = [(*at, height) for at in (outline[0], a, b)]
        yield ends if up else ends[::-1]


def body(outline, height, left_out):
    """A prism over a convex outline, without the sides that are left out."""
    yield from lid(outline, 0.0, False)
    yield from lid(outline, height, True)
    for k, a in enumerate(outline):
        if not left_out(k):
            yield from wall(a, outline[(k + 1) % len(outline)], height)


def ring(sides):
    """A regular outline."""
    at = lambda k: 2 * math.pi * k / sides
    return [(MIDDLE + 90 * math.cos(at(k)), MIDDLE + 90 * math.sin(at(k))) for k in range(sides)]


def prism(sides, height):
    yield from body(ring(sides), height, lambda _: False)


def gear(sides, height):
    """The outline isn't convex, so each lid is a fan about the middle."""
    about = lambda k: 2 * math.pi * k / sides
    far = lambda k: 80 + 8 * math.sin(24 * about(k)) + 0.3 * math.sin(sides / 4 * about(k))
    outline = [(MIDDLE + far(k) * math.cos(about(k)), MIDDLE + far(k) * math.sin(about(k))) for k in range(sides)]
    for k, a in enumerate(outline):
        b = outline[(k + 1) % sides]
        yield from wall(a, b, height)
        for z, ends in ((0.0, (b, a)), (height, (a, b))):
            yield ((MIDDLE, MIDDLE, z), *((*at, z) for at in ends))


def slits(number, height):
    """Every second side of the outline is left out, a third as wide as the others; at most 10 mm with 15 slits or more."""
    at = lambda k: 2 * math.pi * (k // 2 + k % 2 * 0.75) / number
    outline = [(MIDDLE + 90 * math.cos(at(k)), MIDDLE + 90 * math.sin(at(k))) for k in range(2 * number)]
    yield from body(outline, height, lambda k: k % 2 == 1)


def boxes(number, height, left_out):
    """Boxes on a square grid, nearer to themselves than to each other: at most 8 mm wide."""
    across = math.ceil(math.sqrt(number))
    step = 196.0 / across
    for k in range(number):
        x, y = 2 + step * (k % across), 2 + step * (k // across)
        wide = min(0.4 * step, 8)
        yield from body([(x, y), (x + wide, y), (x + wide, y + wide), (x, y + wide)], height, left_out)


def parts(number, height):
    yield from boxes(number, height, lambda _: False)


def lattice(number, height):
    """Bars round the holes as wide as these; the corners of all are those of one grid."""
    across = max(1, round(math.sqrt(number)))
    cells = 2 * across + 1
    step = 180.0 / cells
    at = lambda i, j: (10 + step * i, 10 + step * j)
    is_hole = lambda i, j: not (0 <= i < cells and 0 <= j < cells) or (i % 2 == 1 and j % 2 == 1)
    for i in range(cells):
        for j in range(cells):
            if is_hole(i, j):
                continue
            corners = [at(i, j), at(i + 1, j), at(i + 1, j + 1), at(i, j + 1)]
            yield from lid(corners, 0.0, False)
            yield from lid(corners, height, True)
            for k, (x, y) in enumerate(((i, j - 1), (i + 1, j), (i, j + 1), (i - 1, j))):
                if is_hole(x, y):
                    yield from wall(corners[k], corners[(k + 1) % 4], height)


def open_parts(number, height):
    yield from boxes(number, height, lambda k: k == 0)


def drawn(number, skipped):
    """The 64 points that a number draws, µm round an axis, behind so many others."""
    points = []
    for k in range(skipped + 64):
        number = (number * 1664525 + 1013904223) % 2**32
        if k < skipped:
            continue
        j, radius = k - skipped, 9000 + number // 65536 % 501
        t = j % 16
        way = ((8, t - 8), (8 - t, 8), (-8, 8 - t), (t - 8, -8))[j // 16]
        points.append([(1 if at > 0 else -1) * ((2 * abs(at) * radius + 8) // 16) for at in way])
    return points


def column(number, axis, skipped, height):
    """The facets stand in the order of the generator's."""
    points = [((axis + x) / 1000, (100_000 + y) / 1000) for x, y in drawn(number, skipped)]
    corner = lambda ring, segment: (*points[segment], height * ring / 400)
    yield from turned(400, 64, corner, True)
    yield from lid(points, 0.0, False)
    yield from lid(points, height, True)


def first(number, height):
    yield from column(number, 60_000, 0, height)


def second(number, height):
    yield from column(number, 90_000, 64, height)


KINDS = {
    "sphere": sphere, "vase": vase, "prism": prism, "gear": gear, "parts": parts, "lattice": lattice,
    "open": open_parts, "slits": slits, "first": first, "second": second,
}


def crossed(facet, layer):
    """How many layers of that height, the first one too, cut the facet in their middles."""
    heights = [corner[2] / layer + 0.5 for corner in facet]
    return math.floor(max(heights)) - math.floor(min(heights))


def write(file, kind, number, height, layer=0.2):
    """Writes the mesh to the file; gives the number of its facets, and of the edges of all its sections."""
    facets = edges = 0
    file.write(f"solid {kind}\n")
    for facet in KINDS[kind](number, height):
        file.write(text(facet))
        facets += 1
        edges += crossed(facet, layer)
    file.write(f"endsolid {kind}\n")
    return facets, edges


if __name__ == "__main__":
    if len(sys.argv) not in (3, 4) or sys.argv[1] not in KINDS:
        sys.exit(__doc__)
    high = float(sys.argv[3]) if len(sys.argv) == 4 else 80.0
    write(sys.stdout, sys.argv[1], int(sys.argv[2]), high)
