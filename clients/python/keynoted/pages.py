"""The page of a proof: one file that stands alone, with a picture that is laid out here."""

from __future__ import annotations

import argparse
import html
import sys
from typing import Dict, Iterator, List, NamedTuple, Tuple

from .drawing import Box, Edge, Picture, Proof, dot_of, picture_of, printable
from .texts import read_file

CHARACTER, LINE, PAD, BETWEEN, GAP = 7.3, 16, 10, 58, 30  # of the picture, in pixels
STYLE = """
body { font: 15px/1.45 system-ui, sans-serif; color: #1c2330; background: #fff; margin: 2rem }
h1 { font-size: 1.3rem; margin: 0 0 .3rem } h2 { font-size: 1.05rem; margin: 1.6rem 0 .4rem }
.picture { overflow-x: auto; border: 1px solid #d5dae3; border-radius: 6px; padding: 12px; background: #fbfcfe }
svg text { font: 12px ui-monospace, "DejaVu Sans Mono", monospace; fill: #1c2330 } svg .head { font-weight: bold }
.credential { fill: #fff; stroke: #7b8798 } .critical { fill: #fff; stroke: #1c2330; stroke-width: 3 }
.principal { stroke: #33507a; stroke-width: 1.5 }
.requester { stroke: #33507a; stroke-width: 3 } .absent { fill: #f3f4f6; stroke: #a9b1bd; stroke-dasharray: 4 3 }
.edge { fill: none; stroke: #33507a; stroke-width: 1.5 } .none { stroke: #b4bac4; stroke-dasharray: 4 3 }
.tag { stroke: #33507a; stroke-width: .6 }
table { border-collapse: collapse }
td, th { border: 1px solid #d5dae3; padding: .25rem .6rem; text-align: left; vertical-align: top }
pre, code { font: 12.5px/1.4 ui-monospace, "DejaVu Sans Mono", monospace }
pre { background: #f5f7fa; padding: .6rem; overflow-x: auto }
"""


class Spot(NamedTuple):
    """Where a box stands."""

    left: float
    top: float
    width: float
    height: float


def escape(text: str) -> str:
    return html.escape(text, quote=True)


def lines_of(proof: Proof, box: Box) -> List[str]:
    """What stands in a box: its head, and the text of a credential or the level of a principal."""
    if box.sort in ("requester", "principal"):
        return [box.head, ("asks" if box.sort == "requester" else "has") + f": {proof.level(box.level)}"]
    return [box.head, *box.lines]


def layout(proof: Proof, picture: Picture) -> Dict[str, Spot]:
    """A place for each box: POLICY on top, each rank in one row, and in a row those near together that are joined."""
    ranks: Dict[int, List[Box]] = {}
    for box in picture.boxes.values():
        ranks.setdefault(box.rank, []).append(box)
    spots: Dict[str, Spot] = {}
    for rank in sorted(ranks):
        left = 0.0
        for box in sorted(ranks[rank], key=lambda it: wished(it, picture, spots)):
            lines = lines_of(proof, box)
            spots[box.key] = Spot(left, 0, max(map(len, lines)) * CHARACTER + 2 * PAD, len(lines) * LINE + 2 * PAD)
            left += spots[box.key].width + GAP
    widest = max(it.left + it.width for it in spots.values())
    top = float(PAD)
    for rank in sorted(ranks, reverse=True):
        row = [spots[it.key] for it in ranks[rank]]
        height, aside = max(it.height for it in row), (widest - max(it.left + it.width for it in row)) / 2 + PAD
        for box, spot in zip(ranks[rank], row):
            spots[box.key] = spot._replace(left=spot.left + aside, top=top + (height - spot.height) / 2)
        top += height + BETWEEN
    return spots


def wished(box: Box, picture: Picture, spots: Dict[str, Spot]) -> float:
    """How far to the right a box should stand: in the middle of those of lower ranks that it is joined with."""
    near = [middle(spots[it.start]) for it in picture.edges if it.end == box.key and it.start in spots]
    return sum(near) / len(near) if near else float("inf")


def middle(spot: Spot) -> float:
    return spot.left + spot.width / 2


def shade(level: int, highest: int) -> str:
    """The colour of a level: the higher the darker."""
    part = level / highest if highest else 0
    ends = ((0xf0, 0x9f), (0xf4, 0xd3), (0xfa, 0xb4))
    return "#%02x%02x%02x" % tuple(round(low + (high - low) * part) for low, high in ends)


def svg_of(proof: Proof, picture: Picture) -> Iterator[str]:
    spots = layout(proof, picture)
    width = max(it.left + it.width for it in spots.values()) + PAD
    height = max(it.top + it.height for it in spots.values()) + PAD
    yield (f'<svg xmlns="http://www.w3.org/2000/svg" width="{width:.0f}" height="{height:.0f}" '
           f'viewBox="0 0 {width:.0f} {height:.0f}" role="img">')
    yield f"<title>{escape(f'Why POLICY has {proof.name}')}</title>"
    yield ('<defs><marker id="tip" markerWidth="9" markerHeight="8" refX="8" refY="4" orient="auto">'
           '<path d="M0,0 9,4 0,8 z" fill="#33507a"/></marker></defs>')
    for edge in picture.edges:
        yield path_of(edge, spots)
    for key, box in picture.boxes.items():
        yield from box_of(proof, box, spots[key])
    for edge in picture.edges:
        if edge.level:
            yield from tag_of(proof, edge, spots)
    yield "</svg>"


def ends_of(edge: Edge, spots: Dict[str, Spot]) -> Tuple[float, float, float, float]:
    """Where an edge begins, on top of a box, and ends, under another; the other way round where that stands lower."""
    start, end = spots[edge.start], spots[edge.end]
    if end.top > start.top:
        return middle(start), start.top + start.height, middle(end), end.top
    return middle(start), start.top, middle(end), end.top + end.height


def path_of(edge: Edge, spots: Dict[str, Spot]) -> str:
    x, y, to_x, to_y = ends_of(edge, spots)
    half = (y + to_y) / 2
    look = 'class="edge" marker-end="url(#tip)"' if edge.level else 'class="edge none"'
    return f'<path d="M{x:.1f},{y:.1f} C{x:.1f},{half:.1f} {to_x:.1f},{half:.1f} {to_x:.1f},{to_y:.1f}" {look}/>'


def tag_of(proof: Proof, edge: Edge, spots: Dict[str, Spot]) -> Iterator[str]:
    """The level on an edge."""
    x, y, to_x, to_y = ends_of(edge, spots)
    name = proof.level(edge.level)
    name = name if len(name) <= 10 else name[:9] + "…"
    width, across, down = len(name) * CHARACTER + 8, (x + to_x) / 2, (y + to_y) / 2
    yield (f'<rect class="tag" x="{across - width / 2:.1f}" y="{down - 9:.1f}" width="{width:.1f}" height="18" rx="4" '
           f'fill="{shade(edge.level, proof.highest)}"/>')
    yield f'<text x="{across:.1f}" y="{down + 4:.1f}" text-anchor="middle">{escape(name)}</text>'


def box_of(proof: Proof, box: Box, spot: Spot) -> Iterator[str]:
    round_corners = 3 if box.sort in ("credential", "critical") else 14
    fill = f' fill="{shade(box.level, proof.highest)}"' if box.sort in ("requester", "principal") else ""
    yield f"<g><title>{escape(box.whole)}</title>"
    yield (f'<rect class="{box.sort}" x="{spot.left:.1f}" y="{spot.top:.1f}" width="{spot.width:.1f}" '
           f'height="{spot.height:.1f}" rx="{round_corners}"{fill}/>')
    for at, line in enumerate(lines_of(proof, box)):
        look = ' class="head"' if at == 0 else ""
        down = spot.top + PAD + 12 + at * LINE
        yield f'<text{look} xml:space="preserve" x="{spot.left + PAD:.1f}" y="{down:.1f}">{escape(line)}</text>'
    yield "</g>"


def page_of(proof: Proof, picture: Picture) -> str:
    """The whole page. It asks for nothing: no script, no other file, no network."""
    head = f"POLICY has {proof.name}"
    title = escape(printable(head if proof.verdict.startswith("PROVED ") else f"Not proved by these files: {head}"))
    values, verdict = escape(printable(",".join(proof.question.values))), escape(printable(proof.verdict))
    lines = [
        '<!DOCTYPE html>', '<html lang="en"><head><meta charset="utf-8">',
        '<meta http-equiv="Content-Security-Policy" content="default-src \'none\'; style-src \'unsafe-inline\'">',
        f"<title>{title}</title><style>{STYLE}</style></head><body>", f"<h1>{title}</h1>",
        f"<p>It is value {proof.index} of {values}, by version {proof.version} of the credentials. "
        f"<code>keynoted check</code> says of the rows: <code>{verdict}</code>.</p>",
        '<div class="picture">', *svg_of(proof, picture), "</div>",
        "<p>A box with a text is an assertion, which gives its authorizer the value on its arrow; where its border is "
        "thick, the answer would be lower without it. A round box with a thick border asks, and so has the highest "
        "value. What is dashed brought nothing.</p>",
        "<h2>The rows, in their order</h2>", *table_of(proof),
        "<h2>The assertions</h2>", *texts_of(proof), "</body></html>",
    ]
    return "\n".join(lines)


def table_of(proof: Proof) -> Iterator[str]:
    yield "<table><tr><th>row</th><th>principal</th><th>has</th><th>by</th></tr>"
    for at, row in enumerate(proof.rows, 1):
        who, level = printable(row.principal.decode("utf-8", "replace")), printable(proof.level(row.level))
        yield f"<tr><td>{at}</td><td>{escape(who)}</td><td>{escape(level)}</td><td>{escape(row.id)}</td></tr>"
    yield "</table>"


def texts_of(proof: Proof) -> Iterator[str]:
    for row in proof.rows:
        part = proof.parts.get(row.id)
        if part:
            place = printable(part.place(0))
            lines = part.text.decode("utf-8", "replace").replace("\t", "    ").split("\n")
            text = "\n".join(printable(it) for it in lines)
            yield f"<p>{escape(row.id)}, {escape(place)}</p><pre>{escape(text)}</pre>"


def run_drawing(args: argparse.Namespace) -> int:
    """Draws the last VALUE reply of an output: the words are POLICY SCRIPT [OUTPUT], else standard input is one."""
    if not 2 <= len(args.line) <= 3:
        raise ValueError("a picture wants POLICY SCRIPT [OUTPUT], as check does")
    output = read_file(args.line[2]) if len(args.line) == 3 else sys.stdin.buffer.read()
    proof = Proof(args.line[0], args.line[1], output)
    text = "\n".join(dot_of(proof)) if args.picture == "dot" else page_of(proof, picture_of(proof))
    sys.stdout.buffer.write(text.encode("utf-8", "replace") + b"\n")
    return 0
