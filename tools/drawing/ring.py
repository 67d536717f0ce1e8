"""The ring of a dump: a rim for who owns what in the current view, and within it a band for each silo with what it has."""

from math import pi

from drawing.dump import CIRCLE
from drawing.page import INK, PALE, PAPER, around, number, tint_of, width_of

RIM = 16
STATES = {"settled": "settled: answers requests", "awaiting": "awaiting a snapshot", "recovering": "recovering, from reports"}
MOST_PLACES = 12
MOST_PIECES = 4
NOTES = ("the rim: who owns what in the current view", "the bands: what each silo has", "a dot: an entry, at its hash")


def numbers_by_address(dump):
    """A number for each silo of a dump, from 1."""
    return {row.silo: index for index, row in enumerate(dump.rows, 1)}


def fill_for(page, silo_number, state):
    """How a piece of a silo is filled: by its tint where it is settled, else by a pattern on paper."""
    if state == "settled":
        return tint_of(silo_number)
    name = f"{state}-{silo_number}"
    marks = {"awaiting": '<path d="M-1,1 l2,-2 M0,8 l8,-8 M7,9 l2,-2" stroke="#444" stroke-width="1.1"/>',
             "recovering": '<circle cx="2" cy="2" r="1.2" fill="#222"/><circle cx="6" cy="6" r="1.2" fill="#222"/>'}.get(state, "")
    page.define(name, f'<pattern id="{name}" width="8" height="8" patternUnits="userSpaceOnUse">'
                      f'<rect width="8" height="8" fill="{tint_of(silo_number)}" fill-opacity="0.35"/>{marks}</pattern>')
    return f"url(#{name})"


def draw_part(page, center, radii, start, size, fill, kind):
    """Draws a part of a band, from the hash at its start, so many hashes on."""
    inner, outer = radii
    turns = [(start + size * half / 2) / CIRCLE for half in range(3)]
    outside = [around(center, outer, turn) for turn in turns]
    inside = [around(center, inner, turn) for turn in reversed(turns)]
    path = f"M{pair(outside[0])}" + "".join(f" A{pair((outer, outer))} 0 0 1 {pair(point)}" for point in outside[1:])
    path += f" L{pair(inside[0])}" + "".join(f" A{pair((inner, inner))} 0 0 0 {pair(point)}" for point in inside[1:])
    page.shape("path", d=path + " Z", fill=fill, stroke=INK, stroke_width=1, class_=kind)


def pair(point):
    """A point as a path tells it."""
    return ",".join(number(value) for value in point)


def draw_ring(page, dump, center, radius, numbers):
    """Draws the rim and the bands."""
    draw_rim(page, dump, center, radius, numbers)
    nodes = dump.live_nodes()
    room = radius - RIM - 4
    thickness = min(34, room * 0.72 / max(len(nodes), 1))
    for index, node in enumerate(nodes):
        outer = room - index * thickness
        draw_band(page, dump, node, center, (outer - thickness + min(3, thickness / 5), outer), numbers[node.silo])


def draw_rim(page, dump, center, radius, numbers):
    """Draws who owns what in the current view, with the places where few enough."""
    owned = dump.owned()
    for start, size, silo in owned:
        draw_part(page, center, (radius - RIM, radius), start, size, tint_of(numbers[silo]), "rim")
        if size / CIRCLE > 0.03:
            x, y = around(center, radius - RIM / 2, (start + size / 2) / CIRCLE)
            page.text(x, y + 4, str(numbers[silo]), 11, anchor="middle", weight="bold")
    if not owned:
        page.shape("circle", cx=center[0], cy=center[1], r=radius, fill="none", stroke=PALE, stroke_dasharray="4 4")
    if len(owned) <= MOST_PLACES:
        for start in apart([start for start, _, _ in owned], radius):
            draw_place(page, center, radius, start)


def apart(places, radius):
    """Those of some places, in order, whose names have room beside a rim of this radius."""
    need = 16 / (2 * pi * radius) * CIRCLE
    chosen = []
    for place in places:
        if not chosen or place - chosen[-1] >= need and place - chosen[0] <= CIRCLE - need:
            chosen.append(place)
    return chosen


def draw_place(page, center, radius, place):
    """Writes a place beside the rim."""
    turn = place / CIRCLE
    x, y = around(center, radius + 6, turn)
    side = x - center[0]
    anchor = "middle" if abs(side) < radius / 4 else "start" if side > 0 else "end"
    page.line(around(center, radius, turn), (x, y))
    page.text(x, y + (10 if y > center[1] + radius / 2 else -1), str(place), 10, anchor=anchor)


def draw_band(page, dump, node, center, radii, silo_number):
    """Draws what a silo has: its pieces, their entries, and its number."""
    for piece in node.pieces:
        draw_part(page, center, radii, piece.start, piece.size, fill_for(page, silo_number, piece.state), piece.state)
    middle = sum(radii) / 2
    for piece in node.pieces:
        draw_number(page, dump, center, radii, piece, silo_number)
        for grain, _ in piece.entries:
            x, y = around(center, middle, dump.hash_of(grain) / CIRCLE)
            page.shape("circle", cx=x, cy=y, r=min(3.5, (radii[1] - radii[0]) / 3), fill=INK, stroke=PAPER, stroke_width=0.8, class_="entry")


def draw_number(page, dump, center, radii, piece, silo_number):
    """Writes the silo's number into a piece that has room for it, near its start."""
    thickness = radii[1] - radii[0]
    if thickness < 12 or piece.size / CIRCLE < 0.06:
        return
    x, y = around(center, sum(radii) / 2, free_turn(dump, piece, sum(radii) / 2))
    page.shape("circle", cx=x, cy=y, r=7, fill=PAPER, stroke=INK, stroke_width=0.8)
    page.text(x, y + 4, str(silo_number), 10, anchor="middle", weight="bold")


def free_turn(dump, piece, radius):
    """Where in a piece, at this radius, a number has room between the entries, as near to its start as may be."""
    start, size = piece.start / CIRCLE, piece.size / CIRCLE
    entered = [dump.hash_of(grain) / CIRCLE for grain, _ in piece.entries]
    for room in (14, 10):
        need = room / (2 * pi * radius)
        tried = (start + need + (size - 2 * need) * index / 200 for index in range(201))
        free = (turn for turn in tried if all(abs((turn - other + 0.5) % 1 - 0.5) > need for other in entered))
        turn = next(free, None) if size > 2 * need else None
        if turn is not None:
            return turn
    return start + size / 2


def counted(count, one, many=None):
    """A number of things, in words."""
    return f"{count} {one if count == 1 else many or one + 's'}"


def summary(node, numbers):
    """In one line what a silo has."""
    parts = []
    for state in STATES:
        pieces = [piece for piece in node.pieces if piece.state == state]
        if pieces:
            entries = sum(len(piece.entries) for piece in pieces)
            told = {"settled": counted(entries, "entry", "entries"), "awaiting": "from " + awaited_from(pieces, numbers)}.get(state)
            parts.append(f"{state}, {told}" if told else state)
    return "; ".join(parts) if parts else "no range"


def awaited_from(pieces, numbers):
    """The numbers of the silos that pieces await."""
    return ", ".join(str(silo_number) for silo_number in sorted({numbers.get(piece.awaited, 0) for piece in pieces}))


def draw_summary(page, dump, left, top, numbers):
    """Writes a line or two for each live silo; answers where the lines end."""
    y = top
    for node in dump.live_nodes():
        draw_swatch(page, left, y, tint_of(numbers[node.silo]), str(numbers[node.silo]))
        page.text(left + 22, y, f"has seen view {node.seen}", 11)
        page.text(left + 22, y + 14, summary(node, numbers), 11)
        y += 33
    return y


def draw_swatch(page, left, foot, fill, text=""):
    """Draws a small box with this fill, and a number in it."""
    page.box(left, foot - 11, 15, 14, fill)
    page.text(left + 7.5, foot, text, 10, anchor="middle", weight="bold")


def piece_lines(node):
    """What a silo's pieces are, a line each, or in one line where there are many."""
    if len(node.pieces) > MOST_PIECES:
        counts = [(sum(piece.state == state for piece in node.pieces), state) for state in STATES]
        told = ", ".join(f"{count} {state}" for count, state in counts if count)
        return [f"{len(node.pieces)} pieces: {told}", counted(sum(len(piece.entries) for piece in node.pieces), "entry", "entries")]
    return [f"{piece.start}+{piece.size} {piece_words(piece)}" for piece in node.pieces] or ["no range"]


def piece_words(piece):
    """The state of a piece in words."""
    if piece.state == "settled":
        return f"settled, {counted(len(piece.entries), 'entry', 'entries')}"
    return f"{piece.state} {piece.awaited}".strip()


def silo_line(dump, row, nodes):
    """What is told of a silo beside its name."""
    status = row.status(dump.current)
    if status == "dead":
        return f"dead since view {row.dead}"
    return f"{status}, has seen view {nodes[row.silo].seen}" if row.silo in nodes else status


def widest(texts, size):
    """The width of the widest of some texts."""
    return max((width_of(text, size) for text in texts), default=0)
