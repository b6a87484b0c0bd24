"""What lies on a board: the tiles and the tokens, over what is printed there; the links, and the routes over them.

A track is one link, and so is each edge of a centre. A `run` names links by their numbers, from 1 over the whole board: hexes in the
order of the board's text, within a hex in the order of its tile's text. So each tile that is laid may move the numbers after it.
"""
from __future__ import annotations

from collections import defaultdict
from collections.abc import Collection, Iterator, Sequence
from dataclasses import dataclass
from itertools import groupby, islice

from club.kit import FACING, Colour, Face, Hex, Kit, Place, Token

# How many ways are looked at for the routes through some hexes.
MOST_WAYS = 20_000


@dataclass(frozen=True)
class Lay:
    """A tile that was laid on a hex, turned by 0 to 5 sixths."""
    hex: str
    tile: int
    turn: int


@dataclass(frozen=True)
class Layout:
    """A board with the tiles that were laid and the tokens that were placed there, each oldest first."""
    kit: Kit
    lays: tuple[Lay, ...] = ()
    tokens: tuple[Token, ...] = ()

    def last_lay(self, name: str) -> Lay | None:
        """The tile that lies on a hex, if any was laid there."""
        return next((lay for lay in reversed(self.lays) if lay.hex == name), None)

    def face(self, on: Hex) -> Face:
        """What lies on a hex: the last tile there, as it is turned, or what is printed."""
        lay = self.last_lay(on.name)
        return self.kit.tiles[lay.tile].face.turned(lay.turn) if lay else on.face

    def colour(self, on: Hex) -> Colour:
        """The colour of what lies on a hex."""
        lay = self.last_lay(on.name)
        return self.kit.tiles[lay.tile].colour if lay else on.colour

    def tiles_left(self) -> dict[int, int]:
        """How many of each tile are left."""
        lying = [lay.tile for lay in map(self.last_lay, self.kit.board.hexes) if lay]
        return {number: tile.count - lying.count(number) for number, tile in self.kit.tiles.items()}

    def slots(self, name: str, centre: int) -> list[str]:
        """The corporations with a token on a centre of a hex, oldest first, and those for whose first token a slot is kept there."""
        placed = {it.corporation for it in self.tokens}
        waiting = [it for it in self.kit.board.homes if it.corporation not in placed]
        return [it.corporation for it in (*self.tokens, *waiting) if (it.hex, it.centre) == (name, centre)]


@dataclass(frozen=True)
class Hexside:
    """A side of a hex, which is one with the side of the hex across: `edge` is 0 to 2."""
    place: Place
    edge: int


@dataclass(frozen=True)
class Stop:
    """A centre of the board: its number on the hex is counted from 1."""
    hex: str
    centre: int


Node = Hexside | Stop


@dataclass(frozen=True)
class Link:
    """A link of the board. Its second end is its centre, if it has one."""
    number: int
    hex: str
    ends: tuple[Node, Node]

    def far_end(self, node: Node) -> Node:
        """The end that isn't this one."""
        return self.ends[1] if node == self.ends[0] else self.ends[0]


def hexside(place: Place, edge: int) -> Hexside:
    """The hexside that an edge of the hex at a place is."""
    return Hexside(place, edge) if edge < 3 else Hexside(place.across(edge), FACING[edge])


def links_of(layout: Layout) -> list[Link]:
    """All links of a board as it lies: the link of number n stands at n - 1."""
    found = [(on, edges, centre) for on in layout.kit.board.hexes.values() for edges, centre in layout.face(on).links]
    return [Link(number, on.name, (hexside(on.place, edges[0]), Stop(on.name, centre) if centre else hexside(on.place, edges[1])))
            for number, (on, edges, centre) in enumerate(found, 1)]


def described(layout: Layout, names: Collection[str]) -> Iterator[str]:
    """What lies on hexes, or on all that have links or tokens: the tile, the numbers of the links with what each joins, tokens."""
    links = links_of(layout)
    for on in layout.kit.board.hexes.values():
        lay = layout.last_lay(on.name)
        joined = [f"{it.number}: {'-'.join(end_names(layout, on, it.ends))}" for it in links if it.hex == on.name]
        tokens = [f"{it.corporation} on city {it.centre}" for it in layout.tokens if it.hex == on.name]
        if on.name in names or (not names and (joined or tokens)):
            tile = f"tile {lay.tile} turned {lay.turn}" if lay else layout.colour(on).value
            yield f"{on.name:<5} {tile:<17} {', '.join([*joined, *tokens])}".rstrip()


def end_names(layout: Layout, on: Hex, ends: Sequence[Node]) -> Iterator[str]:
    """The ends of a link on a hex: the name of the hex across, or the kind of centre with its number."""
    for end in ends:
        if isinstance(end, Hexside):
            across = layout.kit.board.at(end.place.across(end.edge) if end.place == on.place else end.place)
            yield across.name if across else "edge"
        else:
            kind = layout.face(on).centres[end.centre - 1].kind.name.lower().replace("_", "-")
            yield f"{kind} {end.centre}"


def hexes_of(links: Sequence[Link], route: Sequence[int]) -> list[str]:
    """The names of the hexes that a route leads through, in order."""
    return [name for name, _ in groupby(links[number - 1].hex for number in route)]


def routes_through(links: Sequence[Link], hexes: Sequence[str]) -> list[tuple[int, ...]]:
    """The routes that stop in just these hexes in this order, each as a sheet writes it: its first number less than its last.

    They lead over tracks of as few other hexes as may be: of none if all of a route's hexes are named.
    """
    return found_over([it for it in links if it.hex in hexes], hexes) or found_over(links, hexes)


def found_over(links: Sequence[Link], hexes: Sequence[str]) -> list[tuple[int, ...]]:
    """The same over some of the links."""
    at: dict[Node, list[Link]] = defaultdict(list)
    for link in links:
        at[link.ends[0]].append(link)
        at[link.ends[1]].append(link)
    ways = [Way((node,), (), 0) for node in at if isinstance(node, Stop) and node.hex == hexes[0]]
    for way in islice(ways, MOST_WAYS):  # grows meanwhile
        ways += [longer for link in at[way.nodes[-1]] if (longer := way.over(link, hexes))]
    routes = [way.links for way in ways if way.links and isinstance(way.nodes[-1], Stop) and way.passed == len(hexes) - 1]
    lengths = [len(list(groupby(link.hex for link in route))) for route in routes]
    numbers = [tuple(link.number for link in route) for route, length in zip(routes, lengths) if length == min(lengths)]
    return sorted({min(it, it[::-1]) for it in numbers})


@dataclass(frozen=True)
class Way:
    """A way over links from a centre. Of the hexes that it is to stop in, it has come to `passed` after the first."""
    nodes: tuple[Node, ...]
    links: tuple[Link, ...]
    passed: int

    def over(self, link: Link, hexes: Sequence[str]) -> Way | None:
        """The way with one link more, if it may go on so: a hexside leads into another hex, and no node is passed twice."""
        end = link.far_end(self.nodes[-1])
        if end in self.nodes or (isinstance(self.nodes[-1], Hexside) and link.hex == self.links[-1].hex):
            return None
        passed = self.passed + (link.hex in hexes[self.passed + 1:self.passed + 2])
        may_pass = link.hex == hexes[passed] or isinstance(link.ends[1], Hexside)
        return Way((*self.nodes, end), (*self.links, link), passed) if may_pass else None
