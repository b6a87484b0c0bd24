"""A table's page in HTML, and the same as text for a mail. What changed since an earlier view is marked."""
from collections.abc import Iterator
from dataclasses import replace
from html import escape

from club.drawing import LINKS_SWITCH, board_svg, market_svg, page, tile_svg
from club.layout import described
from club.views import Sheet, View


def html_of(view: View, before: View | None) -> str:
    """The page."""
    old = before or view
    moved = {it.corporation for it in set(view.tokens) - set(old.tokens)}
    choices = "".join(f"<li><code>{escape(it)}</code></li>" for it in view.choices)
    tiles = [(tile_svg(view.layout.kit.tiles[number]), marked(f"{number}: {left}", left != old.tiles_left[number]))
             for number, left in view.tiles_left.items()]
    newest_first = replace(view.turns, rows=dict(reversed(view.turns.rows.items())))
    return page(f"Table {view.table}", f"""
<p>Stamp {view.stamp}. {view.summary}{f" <mark>Changes since the stamp {before.stamp} are marked.</mark>" if before else ""}</p>
<h2>{escape(view.title)}</h2>
<ul>{choices}</ul>
<h2>Board</h2>
{LINKS_SWITCH}
<div class="scroll">{board_svg(view.layout, view.phase, laid_since(view, old))}</div>
<h2>Market</h2>
<div class="scroll">{market_svg(view.layout.kit.chart, view.tokens, moved)}</div>
{"".join(map(sheet_html, view.sheets, old.sheets))}
<h2>Tiles left</h2>
{"".join(f"<figure>{picture}<figcaption>{left}</figcaption></figure>" for picture, left in tiles)}
{sheet_html(newest_first, old.turns)}""")


def laid_since(view: View, before: View) -> set[str]:
    """The hexes on which tiles or tokens were laid since an earlier view."""
    pairs = (view.layout.lays, before.layout.lays), (view.layout.tokens, before.layout.tokens)
    return {it.hex for now, then in pairs for it in now[len(then):]}


def marked(text: str, is_changed: bool) -> str:
    """A text, marked if it's another one than before."""
    return f"<mark>{escape(text)}</mark>" if is_changed and text else escape(text)


def sheet_html(sheet: Sheet, before: Sheet) -> str:
    """A sheet as a table."""
    heads = "".join(f"<th>{escape(it)}</th>" for it in (sheet.title.removesuffix("s"), *sheet.heads))
    rows = ["".join(f"<td>{marked(*cell)}</td>" for cell in row) for row in sheet.compared(before)]
    body = "".join(f"<tr>{it}</tr>" for it in rows)
    return f'<h2>{sheet.title}</h2><div class="scroll {sheet.title.lower()}"><table><tr>{heads}</tr>{body}</table></div>\n'


def text_of(view: View, before: View | None) -> str:
    """The mail. Of the turns it has those since the earlier view, or all."""
    old, first = before or view, len(before.turns.rows) - 1 if before else 0
    tiles = [starred(f"{number}: {left}", left != old.tiles_left[number]) for number, left in view.tiles_left.items()]
    laid = laid_since(view, old)
    board = [starred(it, it.split(" ")[0] in laid) for it in described(view.layout, ())]
    log = [f"{number:>4}  {row['Played']}  [{row['Changed']}]".replace("  []", "") for number, row in view.turns.rows.items()]
    return "\n".join([
        f"Table {view.table}. Stamp {view.stamp}.{f' A star marks what changed since the stamp {before.stamp}.' if before else ''}",
        *due_text(view), "", *(line for sheets in zip(view.sheets, old.sheets) for line in sheet_text(*sheets)),
        "Board", *board, "", "Tiles left", *(", ".join(tiles[it:it + 6]) for it in range(0, len(tiles), 6)), "", "Turns", *log[first:], ""])


def due_text(view: View) -> list[str]:
    """Who is due, and what can be done."""
    return [view.summary, f"{view.title}.", *(f"  {it}" for it in view.choices)]


def sheet_text(sheet: Sheet, before: Sheet) -> Iterator[str]:
    """A sheet as lines."""
    rows = [[sheet.title.removesuffix("s"), *sheet.heads], *([starred(*cell) for cell in row] for row in sheet.compared(before))]
    widths = [max(map(len, it)) for it in zip(*rows)]
    for row in rows:
        yield "  ".join(map(str.ljust, row, widths)).rstrip()
    yield ""


def starred(text: str, is_changed: bool) -> str:
    """A text, with a star if it's another one than before."""
    return f"{text}*" if is_changed else text
