"""Where things stand within a hex: the curves of tracks, the places of centres, and the room for words.

A point is a complex number, whose imaginary part grows downwards. The middle of the hex is 0. Edge 0 looks to the lower right, and
the edges go round clockwise.
"""
from cmath import rect
from math import radians, sqrt
from typing import NamedTuple

from club.kit import EDGE_COUNT, Centre, CentreKind, Face, Place, Track

# From the middle of a hex to a corner, and to the middle of an edge.
SIZE = 60.0
APOTHEM = SIZE * sqrt(3) / 2
SLOT = 13.0
# How deep the handles of a track reach from its edges, so that it is nearly an arc: by how many edges its ends are apart.
DEPTHS = {1: 0.385 * SIZE, 2: 0.536 * SIZE, 3: 2 / 3 * APOTHEM}
# A point, and how far around it something reaches.
Disc = tuple[complex, float]


def toward(degrees: float, distance: float) -> complex:
    """The point at a distance, clockwise from the right."""
    return rect(distance, radians(degrees))


def edge_point(edge: int, depth: float = APOTHEM) -> complex:
    """The point that is so far from the middle toward the middle of an edge."""
    return toward(60 * (edge + 1), depth)


CORNERS = [toward(60 * edge + 90, SIZE) for edge in range(EDGE_COUNT)]
# Where words may stand: in the corners, then at the edges.
WORD_SPOTS = [it * 0.74 for it in CORNERS] + [edge_point(edge, 0.72 * APOTHEM) for edge in range(EDGE_COUNT)]
TOP, BOTTOM = -0.74j * SIZE, 0.74j * SIZE


def middle_of(place: Place) -> complex:
    """The middle of the hex at a place, on a board whose place 0,0 has its middle at 0."""
    return complex(2 * APOTHEM * (place.q + place.r / 2), 1.5 * SIZE * place.r)


class Curve(NamedTuple):
    """A cubic curve from its first to its last point."""
    start: complex
    leaving: complex
    arriving: complex
    end: complex

    def at(self, part: float) -> complex:
        """The point at a part of the curve, from 0 to 1."""
        rest = 1 - part
        return rest**3 * self.start + 3 * rest**2 * part * self.leaving + 3 * rest * part**2 * self.arriving + part**3 * self.end

    @property
    def samples(self) -> list[complex]:
        return [self.at(step / 12) for step in range(13)]


def between(start: int, end: int) -> Curve:
    """The track between two edges."""
    depth = APOTHEM - DEPTHS[min((end - start) % EDGE_COUNT, (start - end) % EDGE_COUNT)]
    return Curve(edge_point(start), edge_point(start, depth), edge_point(end, depth), edge_point(end))


def lies_on_arc(face: Face, centre: Centre) -> bool:
    """Whether a centre is drawn upon the track between its two edges: a town, or a city that isn't alone."""
    return len(centre.edges) == 2 and (centre.kind is CentreKind.TOWN or (centre.kind is CentreKind.CITY and len(face.parts) > 1))


def curves_to(face: Face, centre: Centre, stop: complex) -> list[Curve]:
    """The tracks of a centre that stands at a point: one for each of its edges."""
    if lies_on_arc(face, centre):
        return [between(*centre.edges), between(*reversed(centre.edges))]
    return [Curve(edge_point(it), half := edge_point(it, APOTHEM / 2), half * 0.4 + stop * 0.6, stop) for it in centre.edges]


def radius_of(centre: Centre) -> float:
    """How far a centre reaches around its point."""
    return SLOT * (0.6 if centre.kind is CentreKind.TOWN else {None: 1.6, 1: 1.1, 2: 1.7, 3: 2.2, 4: 2.4}[centre.slots])


def discs_on(face: Face, stops: list[complex], skipped: int | None = None) -> list[Disc]:
    """What the tracks and the centres of a face fill, except for one centre."""
    discs = [(point, 4.0) for part in face.parts if isinstance(part, Track) for point in between(*part.edges).samples]
    for number, (centre, stop) in enumerate(zip(face.centres, stops)):
        if number != skipped:
            discs.append((stop, radius_of(centre)))
            discs += [(point, 4.0) for curve in curves_to(face, centre, stop) for point in curve.samples]
    return discs


def misfit(spot: complex, wish: complex, radius: float, discs: list[Disc]) -> float:
    """How badly something of this radius stands at a spot: overlaps count most, then how far it is from its wish."""
    overlaps = sum(max(0.0, radius + other - abs(spot - point)) for point, other in discs)
    return 20 * overlaps + 0.5 * abs(spot - wish) + 8 * max(0.0, abs(spot) + radius - APOTHEM)


def spots_for(face: Face, number: int) -> list[complex]:
    """Where a centre of a face may stand, the best place first."""
    centre, ring = face.centres[number], [toward(30 * step, depth * SIZE) for depth in (0.3, 0.45) for step in range(12)]
    if lies_on_arc(face, centre):
        return [between(*centre.edges).at(part) for part in (0.5, 0.4, 0.6, 0.3, 0.7, 0.2, 0.8)]
    if len(face.parts) == 1:
        return [0j]
    if not centre.edges:
        return [toward(180 + 360 * number / len(face.centres), 0.42 * SIZE), *ring]
    return [sum(edge_point(edge, 0.45 * APOTHEM) for edge in centre.edges) / len(centre.edges), *ring]


def stops_on(face: Face) -> list[complex]:
    """The points at which the centres of a face stand: apart from one another, and from the tracks of others."""
    wishes = [spots_for(face, number) for number in range(len(face.centres))]
    stops = [spots[0] for spots in wishes]
    for number in [*range(len(stops))] * 3:
        radius, discs = radius_of(face.centres[number]) + SLOT / 2, discs_on(face, stops, number)
        stops[number] = min(wishes[number], key=lambda spot: misfit(spot, wishes[number][0], radius, discs))
    return stops


def word_spots(face: Face, stops: list[complex], words: list[tuple[complex, float]]) -> list[complex]:
    """A free spot for each word, of which the wish and the width are given: the one nearest to its wish."""
    discs, found = discs_on(face, stops), []
    for wish, width in words:
        most = APOTHEM - 2 - width / 2
        spots = [complex(min(max(it.real, -most), most), it.imag) for it in WORD_SPOTS]
        found.append(min(spots, key=lambda spot: misfit(spot, wish, width * 0.45, discs)))
        discs.append((found[-1], width / 2))
    return found
