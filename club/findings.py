"""What a kit that `moderate format` takes may still have wrong: texts that are right one by one, and don't fit together."""
from collections import defaultdict
from collections.abc import Collection, Iterator

from club.kit import CORPORATIONS, EDGE_COUNT, FACING, PRIVATES, Centre, CentreKind, Colour, Face, Hex, Kit, Tile, Track

# The number of a tile, and by how many sixths it is turned.
Turned = tuple[int, int]
# The hexes of these colours never take a tile.
FIXED = (Colour.GREY, Colour.RED)


def findings(kit: Kit) -> list[str]:
    """A sentence for each thing to look at."""
    return [*of_homes_and_blocks(kit), *of_edges(kit), *of_reach(kit), *of_labels(kit), *of_tiles(kit)]


def of_homes_and_blocks(kit: Kit) -> Iterator[str]:
    """Corporations without a home, and privates without a block."""
    if homeless := set(CORPORATIONS) - {home.corporation for home in kit.board.homes}:
        yield f"No `home` line for {listed(homeless)}: such a corporation gets no token, lays no tile and earns nothing."
    if free := set(PRIVATES) - {private for private, _ in kit.board.blocks}:
        yield f"No `block` line for {listed(free)}: such a private blocks no hex."


def listed(names: Collection[str | int]) -> str:
    """Names with commas between."""
    return ", ".join(map(str, sorted(names)))


def is_met(kit: Kit, on: Hex, edge: int) -> bool:
    """Whether the hex across an edge has a link there, or may get one by a tile."""
    other = kit.board.at(on.place.across(edge))
    return other is not None and (other.colour not in FIXED or FACING[edge] in other.face.edges)


def faces_nothing(kit: Kit, on: Hex) -> bool:
    """Whether a hex has an off-board area, and no edge at which track can come to it."""
    has_area = any(it.kind is CentreKind.OFF_BOARD for it in on.face.centres)
    return has_area and not any(is_met(kit, on, edge) for edge in on.face.edges)


def of_edges(kit: Kit) -> Iterator[str]:
    """Off-board areas that face nothing, and other track that does."""
    for on in kit.board.hexes.values():
        unmet = [edge for edge in on.face.edges if not is_met(kit, on, edge)]
        if faces_nothing(kit, on):
            yield f"The off-board area of {on.name} faces nothing: no track can come to it."
        elif unmet:
            yield f"Track of {on.name} leads nowhere at edge {listed(unmet)}."


def of_reach(kit: Kit) -> Iterator[str]:
    """Hexes that no corporation could reach from its home, whatever tiles were laid."""
    homes = {it.hex for it in kit.board.homes}
    sides = [(name, edge) for name in homes for edge in ways_out(kit.board.hexes[name], None)]
    seen, reached = set(sides), set(homes)
    for name, edge in sides:
        on = kit.board.hexes[name]
        if is_met(kit, on, edge):
            other = kit.board.at(on.place.across(edge))
            fresh = {(other.name, out) for out in ways_out(other, FACING[edge])} - seen
            reached.add(other.name)
            seen |= fresh
            sides += fresh
    unreached = [name for name, on in kit.board.hexes.items() if name not in reached and not faces_nothing(kit, on)]
    if homes and unreached:
        yield f"Nothing reaches {', '.join(unreached)} from any home, whatever tiles are laid."


def ways_out(on: Hex, entry: int | None) -> set[int]:
    """The edges over which a way may leave a hex that it entered over an edge, or in which it began at a centre."""
    if on.colour not in FIXED:
        return set(range(EDGE_COUNT))
    passed = [part for part in on.face.parts if isinstance(part, Track) or part.kind is not CentreKind.OFF_BOARD]
    return {edge for part in passed if (isinstance(part, Centre) if entry is None else entry in part.edges) for edge in part.edges}


def of_labels(kit: Kit) -> Iterator[str]:
    """Labels of tiles that no hex bears, and labels of hexes that no tile bears."""
    on_hexes = {it.face.label for it in kit.board.hexes.values()}
    on_tiles = {it.face.label for it in kit.tiles.values()}
    lonely_tiles = [it for it in kit.tiles.values() if it.face.label not in on_hexes | {None}]
    lonely_hexes = [it for it in kit.board.hexes.values() if it.face.label not in on_tiles | {None}]
    yield from (f"No hex bears the label {it.face.label} of tile {it.number}." for it in lonely_tiles)
    yield from (f"No tile bears the label {it.face.label} of hex {it.name}." for it in lonely_hexes)


def of_tiles(kit: Kit) -> Iterator[str]:
    """Hexes on which no tile can be laid, and tiles that can follow nothing or be followed by nothing."""
    if not kit.tiles:
        yield "There are no tiles: the board stays as it is printed."
        return
    tiles = kit.tiles.values()
    followers = {old.number: [(new.number, turn) for new in tiles for turn in turns_on(old.face, old.colour, new)] for old in tiles}
    laid, followed = set(), set()
    for on in kit.board.hexes.values():
        ways = ways_on(kit, on, followers)
        laid |= {number for number, _ in ways}
        followed |= {number for (number, _), after in ways.items() if after}
        if on.colour.following and not ways:
            yield f"No tile can be laid on {on.name}."
    labels = {on.face.label for on in kit.board.hexes.values()} | {None}
    lost = [it for it in tiles if it.number not in laid and it.face.label in labels]
    last = [it for it in tiles if it.number in laid - followed and it.colour.following]
    yield from grouped("On this board {} can follow nothing.", lost)
    yield from grouped("On this board nothing can follow {}.", last)


def ways_on(kit: Kit, on: Hex, followers: dict[int, list[Turned]]) -> dict[Turned, list[Turned]]:
    """Each tile that may come to lie on a hex, in each turn, with those that may follow it there."""
    closed = {edge for edge in range(EDGE_COUNT) if not kit.board.at(on.place.across(edge))}
    ways: dict[Turned, list[Turned]] = {}
    coming = [(tile.number, turn) for tile in kit.tiles.values() for turn in turns_on(on.face, on.colour, tile)]
    while coming:
        number, turn = coming.pop()
        if (number, turn) not in ways and not kit.tiles[number].face.turned(turn).edges & closed:
            after = [(new, (turn + by) % EDGE_COUNT) for new, by in followers[number]]
            ways[number, turn] = [(new, by) for new, by in after if not kit.tiles[new].face.turned(by).edges & closed]
            coming += ways[number, turn]
    return ways


def turns_on(old: Face, colour: Colour, new: Tile) -> list[int]:
    """The turns in which a tile may be laid on a face of a colour: it keeps what lies there, and adds a link."""
    centres, others = ([(it.kind, it.slots or 0) for it in face.centres] for face in (old, new.face))
    are_kept = len(centres) == len(others) and all(a[0] is b[0] and a[1] <= b[1] for a, b in zip(centres, others))
    if not are_kept or old.label != new.face.label or colour.following is not new.colour:
        return []
    return [turn for turn in range(EDGE_COUNT) if set(old.links) < set(new.face.turned(turn).links)]


def grouped(sentence: str, tiles: list[Tile]) -> Iterator[str]:
    """A sentence for all tiles of a colour and a number of edges."""
    groups = defaultdict(list)
    for tile in tiles:
        groups[tile.colour.value, len(tile.face.edges)].append(tile.number)
    for (colour, edges), numbers in groups.items():
        yield sentence.format(f"{colour} {listed(numbers)} ({edges} edges)")
