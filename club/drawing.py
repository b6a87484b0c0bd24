"""Pictures as inline SVG: tiles, a board as it lies, and the market; and the HTML page around them.

Colours, light and dark, are in `style.css`. A page needs no script: the checkbox `LINKS_SWITCH` in front of a board shows and hides
the numbers of its links.
"""
from collections.abc import Collection, Iterator, Sequence
from dataclasses import dataclass
from html import escape
from pathlib import Path

from club.geometry import (
    APOTHEM, BOTTOM, CORNERS, SIZE, SLOT, TOP, Curve, between, curves_to, edge_point, middle_of, misfit, radius_of, stops_on, toward, word_spots)
from club.kit import CORPORATIONS, EDGE_COUNT, LATE_TRAINS, Cell, Centre, CentreKind, Chart, Colour, Face, Mark, Part, Tile, Track
from club.layout import Layout

STYLE = Path(__file__).with_name("style.css")
LINKS_SWITCH = '<input type="checkbox" id="show_links"> <label class="switch" for="show_links">numbers of the links</label>'
# The colour of each corporation's tokens, and of the words on them.
INKS = {"PRR": ("#237a3b", "#fff"), "NYC": ("#3b3b3b", "#fff"), "CPR": ("#c4302b", "#fff"), "B&O": ("#1d5fa8", "#fff"),
        "C&O": ("#9fd3e8", "#000"), "ERIE": ("#f4e04d", "#000"), "NYNH": ("#e8903a", "#000"), "B&M": ("#8e2c5a", "#fff")}
KEPT_INKS = ("#fff", "#777")
CELL_SIDE = 52.0


@dataclass(frozen=True)
class MarketToken:
    """A corporation's token on the chart: row and column are counted from 0."""
    corporation: str
    row: int
    column: int

    def cell(self, chart: Chart) -> Cell:
        """The cell of the chart on which it is."""
        cell = chart[self.row][self.column]
        assert cell
        return cell


@dataclass(frozen=True)
class Sketch:
    """All that is drawn on a hex.

    `slots` has for each centre the corporations whose tokens stand there, and then those for which a slot is kept, as they are
    `waiting` for their first token. Without a `phase` both values of an off-board area are bright.
    """
    colour: Colour
    face: Face
    slots: Sequence[Sequence[str]] = ()
    waiting: Collection[str] = ()
    name: str = ""
    cost: int | None = None
    blocks: Sequence[str] = ()
    tile: int | None = None
    phase: str | None = None
    first_link: int = 1
    is_changed: bool = False


def page(title: str, body: str) -> str:
    """A whole HTML page, which needs no other file."""
    return f"""<!DOCTYPE html>
<html lang="en"><head><meta charset="utf-8"><meta name="viewport" content="width=device-width, initial-scale=1">
<title>{escape(title)}</title><style>{STYLE.read_text(encoding="utf-8")}</style></head>
<body><h1>{escape(title)}</h1>{body}</body></html>"""


def board_svg(layout: Layout, phase: str | None = None, changed: Collection[str] = ()) -> str:
    """The board as it lies, in a phase if one is given. The hexes whose names are in `changed` are marked."""
    middles = {on.name: middle_of(on.place) for on in layout.kit.board.hexes.values()}
    # A marked outline lies over those of its neighbours, and numbers lie over all hexes.
    sketches = sorted(sketches_of(layout, phase, changed), key=lambda it: it.is_changed)
    groups = [moved(draw(it), middles[it.name]) for draw in (hex_group, link_numbers) for it in sketches]
    return svg("board", "the board", [middle + corner for middle in middles.values() for corner in CORNERS], groups)


def sketches_of(layout: Layout, phase: str | None, changed: Collection[str]) -> Iterator[Sketch]:
    """A sketch of each hex of a board."""
    first_link, waiting = 1, set(CORPORATIONS) - {it.corporation for it in layout.tokens}
    for on in layout.kit.board.hexes.values():
        face, lay = layout.face(on), layout.last_lay(on.name)
        slots = [layout.slots(on.name, it) for it in range(1, len(face.centres) + 1)]
        cost, tile = (None, lay.tile) if lay else (on.cost, None)
        blocks = [private for private, name in layout.kit.board.blocks if name == on.name and not lay]
        yield Sketch(layout.colour(on), face, slots, waiting, on.name, cost, blocks, tile, phase, first_link, on.name in changed)
        first_link += len(face.links)


def tile_svg(tile: Tile, turn: int = 0) -> str:
    """A tile of the manifest in a turn of 0 to 5 sixths."""
    return svg("tile", f"tile {tile.number}", CORNERS, [hex_group(Sketch(tile.colour, tile.face.turned(turn), tile=tile.number))])


def edges_svg() -> str:
    """A hex with the numbers of its edges."""
    numbers = [word(str(edge), edge_point(edge, 0.72 * APOTHEM), "name") for edge in range(EDGE_COUNT)]
    return svg("tile", "the numbers of the edges", CORNERS, [hex_group(Sketch(Colour.WHITE, Face())), *numbers])


def svg(kind: str, label: str, points: Sequence[complex], groups: Sequence[str]) -> str:
    """A picture that has room for some points. Its kind is a class of the style."""
    left, top = (round(min(it)) - 3 for it in ([it.real for it in points], [it.imag for it in points]))
    width, height = round(max(it.real for it in points)) + 3 - left, round(max(it.imag for it in points)) + 3 - top
    return (f'<svg class="{kind}" xmlns="http://www.w3.org/2000/svg" viewBox="{left} {top} {width} {height}" width="{width}" '
            f'height="{height}" role="img" aria-label="{escape(label)}">\n' + "\n".join(groups) + "\n</svg>")


def moved(group: str, by: complex) -> str:
    """A group at another place."""
    return f'<g transform="translate({by.real:.1f} {by.imag:.1f})">{group}</g>'


def word(text: str, place: complex, kind: str, style: str = "") -> str:
    """A word whose middle is at a place. Its kind is a class of the style."""
    styled = f' style="{style}"' if style else ""
    return f'<text class="{kind}" x="{place.real:.1f}" y="{place.imag + 3.6:.1f}"{styled}>{escape(text)}</text>'


def circle(kind: str, place: complex, radius: float, paint: str = "") -> str:
    """A circle, in a colour of its own or in that of its kind, which is a class of the style."""
    painted = f' fill="{paint}"' if paint else ""
    return f'<circle class="{kind}" cx="{place.real:.1f}" cy="{place.imag:.1f}" r="{radius:.1f}"{painted}/>'


def hex_group(sketch: Sketch) -> str:
    """A hex around the point 0."""
    stops = stops_on(sketch.face)
    corners = " ".join(f"{it.real:.1f},{it.imag:.1f}" for it in CORNERS)
    drawn = [f"<title>{sketch.name} {sketch.colour.value}</title>", f'<polygon points="{corners}"/>']
    drawn += [f'<path class="track" d="{path_of(curve)}"/>' for _, curve in curves_of(sketch.face, stops)]
    for centre, stop, slots in zip(sketch.face.centres, stops, [*sketch.slots, *[()] * len(stops)]):
        drawn += centre_marks(sketch, centre, stop, slots)
    drawn += words_on(sketch, stops)
    return f'<g class="hex {sketch.colour.value}{" changed" if sketch.is_changed else ""}">{"".join(drawn)}</g>'


def curves_of(face: Face, stops: list[complex]) -> list[tuple[Part, Curve]]:
    """The curve of each link of a face, in the order of their numbers."""
    places = iter(stops)
    return [(part, curve) for part in face.parts
            for curve in ([between(*part.edges)] if isinstance(part, Track) else curves_to(face, part, next(places)))]


def path_of(curve: Curve) -> str:
    """A curve as a path."""
    start, *rest = (f"{it.real:.1f} {it.imag:.1f}" for it in curve)
    return f"M{start}C{' '.join(rest)}"


def centre_marks(sketch: Sketch, centre: Centre, stop: complex, slots: Sequence[str]) -> Iterator[str]:
    """A town, a city with what stands in its slots, or an off-board area: its value above that from the first 5 on."""
    if centre.kind is CentreKind.TOWN:
        yield circle("town", stop, SLOT * 0.6)
    elif centre.kind is CentreKind.OFF_BOARD:
        early = (stop - 9j, centre.value, "early", sketch.phase not in LATE_TRAINS)
        late = (stop + 9j, centre.later_value, "late", sketch.phase is None or sketch.phase in LATE_TRAINS)
        for place, value, kind, is_due in (early, late):
            box = f'<rect x="{place.real - 15:.1f}" y="{place.imag - 9:.1f}" width="30" height="18"/>{word(str(value), place, "value")}'
            yield f'<g class="{kind}{"" if is_due else " faded"}">{box}</g>'
    else:
        places = slot_places(centre.slots, stop)
        outline = "L".join(f"{it.real:.1f} {it.imag:.1f}" for it in [*places, places[0] + 0.1])
        yield f'<path class="city" d="M{outline}Z"/>'
        yield from (circle("slot", place, SLOT - 1) for place in places)
        for place, corporation in zip(places, slots):
            kind, (paint, ink) = ("kept", KEPT_INKS) if corporation in sketch.waiting else ("token", INKS[corporation])
            size = 9.5 if len(corporation) < 4 else 7.8
            yield circle(kind, place, SLOT - 1, paint) + word(corporation, place, kind, f"font-size:{size}px;fill:{ink}")


def slot_places(slots: int, stop: complex) -> list[complex]:
    """The middles of a city's slots: two stand side by side, across the line to the middle of the hex."""
    if slots < 3:
        along = stop / abs(stop) * 1j * SLOT if abs(stop) > 1 else SLOT
        return [stop] if slots == 1 else [stop - along, stop + along]
    first, reach = (-90, 1.16 * SLOT) if slots == 3 else (45, 1.42 * SLOT)
    return [stop + toward(first + 360 * slot / slots, reach) for slot in range(slots)]


def words_on(sketch: Sketch, stops: list[complex]) -> Iterator[str]:
    """The words around the tracks and centres of a hex: its name, values, label, cost, blocks and the tile's number."""
    values = [(str(it.value), stop + toward(-30, SLOT), "value") for it, stop in zip(sketch.face.centres, stops)
              if it.value and it.kind is not CentreKind.OFF_BOARD]
    wanted = [(sketch.name, TOP, "name"), *(values if len({it[0] for it in values}) > 1 else values[:1]),
              (sketch.face.label, toward(210, SIZE), "label"), (sketch.cost and f"${sketch.cost}", toward(30, SIZE), "cost"),
              *((f"⊘{it}", toward(150, SIZE), "block") for it in sketch.blocks), (sketch.tile and f"#{sketch.tile}", BOTTOM, "number")]
    words = [it for it in wanted if it[0]]
    spots = word_spots(sketch.face, stops, [(wish, 6.5 * len(text) + 4) for text, wish, _ in words])
    yield from (word(text, spot, kind) for (text, _, kind), spot in zip(words, spots))


def link_numbers(sketch: Sketch) -> str:
    """The number of each link of a hex, where it is apart from other links, from centres and from other numbers."""
    stops, drawn = stops_on(sketch.face), []
    curves = curves_of(sketch.face, stops)
    filled = [(stop, radius_of(centre) + 6) for centre, stop in zip(sketch.face.centres, stops)]
    for number, (part, curve) in enumerate(curves, sketch.first_link):
        discs = filled + [(point, 7.0) for _, other in curves if other is not curve for point in other.samples]
        wish, *spots = [curve.at(step / 20) for step in ((10, *range(4, 17)) if isinstance(part, Track) else (5, *range(2, 9)))]
        spot = min(spots, key=lambda it: misfit(it, wish, 6.0, discs))
        filled += [(spot + shift, 6.0) for shift in (-5, 5)]
        drawn.append(word(str(number), spot, "link"))
    return f'<g class="links">{"".join(drawn)}</g>'


def market_svg(chart: Chart, tokens: Sequence[MarketToken] = (), changed: Collection[str] = ()) -> str:
    """The market. `tokens` are in the order in which they came: the first in a cell is on top. Those of `changed` are marked."""
    groups, cells = [], [(row, column, cell) for row, cells in enumerate(chart) for column, cell in enumerate(cells) if cell]
    for row, column, cell in sorted(cells, key=lambda it: it[2].mark is Mark.PAR):
        stack = [it.corporation for it in tokens if (it.row, it.column) == (row, column)]
        marks = "".join(stack_marks(stack, changed)) + word(str(cell.price), 15 + 9j, "price")
        drawn = f'<g class="cell {cell.mark.name.lower()}"><rect width="{CELL_SIDE}" height="{CELL_SIDE}"/>{marks}</g>'
        groups.append(moved(drawn, complex(column * CELL_SIDE, row * CELL_SIDE)))
    return svg("market", "the market", [0j, complex(max(map(len, chart)) * CELL_SIDE, len(chart) * CELL_SIDE)], groups)


def stack_marks(corporations: Sequence[str], changed: Collection[str]) -> Iterator[str]:
    """The tokens of a cell, the lowest first, in two columns if there are more than three."""
    columns, pitch = (1 if len(corporations) < 4 else 2), (11.5 if len(corporations) < 7 else 8.5)
    width = (CELL_SIDE - 6) / columns
    for place, corporation in reversed(list(enumerate(corporations))):
        paint, ink = INKS[corporation]
        left, top = 3 + place % columns * width, 16 + place // columns * pitch
        kind = "token changed" if corporation in changed else "token"
        yield f'<rect class="{kind}" x="{left:.1f}" y="{top:.1f}" width="{width - 1:.1f}" height="11" rx="3" fill="{paint}"/>'
        yield word(corporation, complex(left + width / 2, top + 5.5), "token", f"font-size:8px;fill:{ink}")
