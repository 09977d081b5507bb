#!/usr/bin/env python3
"""Draws the pictures of this folder: the classes of a flat field for t = 4 and t = 5 beside the tables of source document 002, and a field with
a cluster of lost cells. Run it in this folder; it writes classes-t4.svg, classes-t5.svg and cluster.svg."""

CELL = 30


def settings(t):
    """m and b of a flat field: document 01, "Classes"."""
    return ((t * t + 1) // 2, t) if t % 2 else (t * t // 2, t + 1)


def class_of(t, row, column):
    m, b = settings(t)
    return (column - b * row) % m


# The tables of source document 002, example 2.3.
TABLE_4 = """
0 1 2 3 4 5 6 7
3 4 5 6 7 0 1 2
6 7 0 1 2 3 4 5
1 2 3 4 5 6 7 0
4 5 6 7 0 1 2 3
7 0 1 2 3 4 5 6
2 3 4 5 6 7 0 1
5 6 7 0 1 2 3 4
"""
TABLE_5 = """
0 1 2 3 4 5 6 7 8 9 10 11 12
8 9 10 11 12 0 1 2 3 4 5 6 7
3 4 5 6 7 8 9 10 11 12 0 1 2
11 12 0 1 2 3 4 5 6 7 8 9 10
6 7 8 9 10 11 12 0 1 2 3 4 5
1 2 3 4 5 6 7 8 9 10 11 12 0
9 10 11 12 0 1 2 3 4 5 6 7 8
4 5 6 7 8 9 10 11 12 0 1 2 3
12 0 1 2 3 4 5 6 7 8 9 10 11
7 8 9 10 11 12 0 1 2 3 4 5 6
2 3 4 5 6 7 8 9 10 11 12 0 1
10 11 12 0 1 2 3 4 5 6 7 8 9
5 6 7 8 9 10 11 12 0 1 2 3 4
"""


def colour(number, count):
    return f"hsl({number * 360 // count}, 60%, 82%)"


def cell(x, y, fill, text, extra=""):
    return (
        f'<rect x="{x}" y="{y}" width="{CELL}" height="{CELL}" fill="{fill}" stroke="#666"/>'
        f'<text x="{x + CELL // 2}" y="{y + CELL // 2 + 5}" text-anchor="middle">{text}</text>{extra}'
    )


def page(width, height, title, body):
    return (
        f'<svg xmlns="http://www.w3.org/2000/svg" width="{width}" height="{height}" viewBox="0 0 {width} {height}" '
        f'font-family="sans-serif" font-size="14"><title>{title}</title><rect width="{width}" height="{height}" fill="white"/>'
        + "".join(body)
        + "</svg>\n"
    )


def classes(t, table):
    m, b = settings(t)
    rows = [[int(n) for n in line.split()] for line in table.split("\n") if line]
    ours = [[class_of(t, r, c) for c in range(m)] for r in range(m)]
    assert rows == ours, f"the table of source document 002 for t = {t} differs"
    side, gap, top = m * CELL, 40, 50
    body = [f'<text x="10" y="30">t = {t}: m = {m}, b = {b}. Left: (column − {b} × row) mod {m}. Right: the table of source document 002.</text>']
    for r in range(m):
        for c in range(m):
            body.append(cell(10 + c * CELL, top + r * CELL, colour(ours[r][c], m), ours[r][c]))
            body.append(cell(10 + side + gap + c * CELL, top + r * CELL, "white", rows[r][c]))
    return page(max(2 * side + gap + 20, 700), side + top + 10, f"Classes of a flat field for t = {t}", body)


def cluster():
    t, (m, b) = 3, settings(3)
    written = ["10011", "00101", "10100", "10101", "10110"]
    damaged = ["10011", "00101", "10010", "10001", "10110"]
    lost = {(r, c) for r in range(5) for c in range(5) if written[r][c] != damaged[r][c]}
    assert len({class_of(t, r, c) for r, c in lost}) == len(lost), "a lost cell shares its class with another"
    top, gap, side = 50, 60, 5 * CELL
    body = ['<text x="10" y="30">5 by 5, t = 3: the written cells, the classes, and the damaged cells. Each lost cell has a class of its own.</text>']
    for r in range(5):
        for c in range(5):
            ring = f'<rect x="%d" y="{top + r * CELL + 2}" width="{CELL - 4}" height="{CELL - 4}" fill="none" stroke="#c00" stroke-width="3"/>'
            for place, fill, text in (
                (0, "#333" if written[r][c] == "1" else "white", ""),
                (1, colour(class_of(t, r, c), m), class_of(t, r, c)),
                (2, "#333" if damaged[r][c] == "1" else "white", ""),
            ):
                x = 10 + place * (side + gap) + c * CELL
                body.append(cell(x, top + r * CELL, fill, text, ring % (x + 2) if (r, c) in lost and place else ""))
    return page(3 * side + 2 * gap + 250, side + top + 10, "A cluster of lost cells", body)


for name, text in (("classes-t4", classes(4, TABLE_4)), ("classes-t5", classes(5, TABLE_5)), ("cluster", cluster())):
    with open(name + ".svg", "w", encoding="utf-8") as out:
        out.write(text)
