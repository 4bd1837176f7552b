#!/usr/bin/env python3
# SPDX-License-Identifier: Apache-2.0
"""Draws the pictures of the pages, docs/pictures/*.svg.

usage: checks/picture.py           draws all of them
       checks/picture.py --check   fails where one is stale
"""
import os
import sys

os.chdir(os.path.dirname(os.path.dirname(os.path.abspath(__file__))))

FOLDER = "docs/pictures"
# The colours of Okabe and Ito, as in the Python package's plot.
COLOURS = {"skipped": "#999999", "whole": "#009E73", "read": "#E69F00"}
BAND = "#56B4E9"
INK = "#222222"

# Each zone's least value, its greatest value and its number of nulls, under `price BETWEEN 40 AND 70`.
ZONES = [(4, 22, 0), (12, 31, 0), (18, 38, 3), (27, 52, 0), (35, 63, 0), (42, 58, 0), (45, 68, 0), (48, 66, 2), (55, 84, 0), (61, 90, 0), (73, 95, 0), (79, 98, 0)]
LOW, HIGH = 40, 70


def verdict(low, high, nulls):
    """What pruning answers for a zone of these statistics under the picture's predicate."""
    if high < LOW or low > HIGH:
        return "skipped"
    return "whole" if low >= LOW and high <= HIGH and nulls == 0 else "read"


def rect(x, y, w, h, fill, more=""):
    return f'<rect x="{x:g}" y="{y:g}" width="{w:g}" height="{h:g}" fill="{fill}" {more}/>'


def text(x, y, words, size=13, anchor="middle", fill=INK, weight="normal"):
    return f'<text x="{x:g}" y="{y:g}" font-size="{size}" text-anchor="{anchor}" fill="{fill}" font-weight="{weight}">{words}</text>'


def line(x1, y1, x2, y2, more=""):
    return f'<line x1="{x1:g}" y1="{y1:g}" x2="{x2:g}" y2="{y2:g}" stroke="{INK}" {more}/>'


def page(width, height, title, shapes):
    arrow = f'<marker id="end" markerWidth="9" markerHeight="8" refX="8" refY="4" orient="auto"><path d="M0,0 L9,4 L0,8 z" fill="{INK}"/></marker>'
    return "\n".join([
        f'<svg xmlns="http://www.w3.org/2000/svg" width="{width}" height="{height}" viewBox="0 0 {width} {height}" font-family="DejaVu Sans, Helvetica, Arial, sans-serif">',
        f"<title>{title}</title>",
        f"<defs>{arrow}</defs>",
        rect(0, 0, width, height, "#ffffff"),
        *shapes,
        "</svg>",
        "",
    ])


def pruning():
    """Zones as bars, the predicate as a band, and what becomes of each zone by its colour."""
    left, right, top, bottom = 64, 744, 44, 284

    def up(value):
        return bottom - (bottom - top) * value / 100

    shapes = [text(left, 24, "price BETWEEN 40 AND 70 over the zones of a file", 15, "start", weight="bold")]
    shapes.append(rect(left, up(HIGH), right - left, up(LOW) - up(HIGH), BAND, 'fill-opacity="0.35"'))
    for value in (0, LOW, HIGH, 100):
        shapes += [line(left - 5, up(value), left, up(value)), text(left - 10, up(value) + 4, value, 12, "end")]
    shapes += [line(left, top, left, bottom), line(left, bottom, right, bottom)]
    width = (right - left) / len(ZONES)
    for place, zone in enumerate(ZONES):
        low, high, nulls = zone
        x = left + place * width
        shapes.append(rect(x + width * 0.2, up(high), width * 0.6, up(low) - up(high), COLOURS[verdict(*zone)], 'rx="2"'))
        shapes.append(text(x + width / 2, bottom + 17, place, 12))
        if nulls:
            shapes.append(text(x + width / 2, up(high) - 5, f"{nulls} nulls", 11))
    shapes.append(text((left + right) / 2, bottom + 36, "zone: from its least to its greatest value", 12))
    return page(780, 372, "Zones as bars, the predicate as a band", shapes + legend(left, bottom + 66))


def legend(left, y):
    words = {"skipped": "skipped: no row satisfies", "whole": "whole: every row does", "read": "read: the rows decide"}
    shapes = []
    for place, (name, said) in enumerate(words.items()):
        count = sum(verdict(*zone) == name for zone in ZONES)
        x = left + place * 226
        shapes += [rect(x, y - 12, 14, 14, COLOURS[name], 'rx="2"'), text(x + 20, y, f"{count} {said}", 13, "start")]
    return shapes


def box(x, y, w, h, lines, fill="#eef4f8"):
    shapes = [rect(x, y, w, h, fill, f'rx="5" stroke="{INK}" stroke-width="1"')]
    first = y + h / 2 - 8 * (len(lines) - 1) + 5
    return shapes + [text(x + w / 2, first + 17 * at, it, 13 if at else 14, weight="normal" if at else "bold") for at, it in enumerate(lines)]


def to(x1, y1, x2, y2):
    return line(x1, y1, x2, y2, 'stroke-width="1.4" marker-end="url(#end)"')


def way():
    """The way of a predicate: rewritten once, bound to the statistics of each zone, evaluated."""
    shapes = box(20, 30, 190, 58, ["predicate", "price &gt; 10"]) + box(20, 178, 190, 58, ["statistics of a zone", "min 3, max 8, nulls 0"])
    shapes += box(310, 20, 240, 78, ["falsifier", "max(price) &lt;= 10", "bound: 8 &lt;= 10 is true"])
    shapes += box(310, 168, 240, 78, ["satisfier", "min(price) &gt; 10 and no nulls", "bound: 3 &gt; 10 is false"])
    shapes += [to(210, 52, 308, 52), to(210, 70, 308, 178), text(258, 44, "rewrite", 12)]
    shapes += [to(210, 198, 308, 90), to(210, 216, 308, 216), text(258, 234, "bind", 12)]
    shapes += box(640, 30, 200, 58, ["skipped", "no row satisfies"], "#dddddd")
    shapes += box(640, 124, 200, 58, ["whole", "every row satisfies"], "#bfe6d8")
    shapes += box(640, 218, 200, 58, ["read", "the rows decide"], "#f7dfae")
    shapes += [to(550, 59, 638, 59), text(594, 51, "true", 12), to(430, 98, 430, 166), text(440, 138, "false or null", 12, "start")]
    shapes += [to(550, 195, 638, 153), text(590, 162, "true", 12), to(550, 219, 638, 247), text(594, 268, "false or null", 12)]
    return page(860, 296, "A predicate becomes two proofs over statistics", shapes)


def stands_on():
    """The crates of the product and what each stands on, by crates.txt; those of tests, benchmarks and examples are left out."""
    found = {}
    for row in open("crates.txt", encoding="utf-8"):
        name, _, below = row.partition("#")[0].partition(":")
        if below and not name.split()[0].endswith(("_tests", "_testing", "_bench", "_examples")):
            found[name.split()[0]] = below.split()
    return {name: [it for it in below if it in found] for name, below in found.items()}


def layers():
    """The crates in rows: each in the row above the highest of those that it stands on."""
    below, rows = stands_on(), {}

    def row(name):
        return 1 + max((row(it) for it in below[name]), default=-1)

    for name in below:
        rows.setdefault(row(name), []).append(name)
    width, height, shapes = 800, 40, []
    for at, names in sorted(rows.items()):
        wide = width / len(names)
        for place, name in enumerate(names):
            shapes += box(20 + place * wide, 20 + (len(rows) - 1 - at) * (height + 10), wide - 10, height, [name.removeprefix("vortex_")])
    return page(830, 30 + len(rows) * (height + 10), "The crates, each above those that it stands on", shapes)


def flow(title, height, boxes, arrows):
    """Boxes in columns of equal width, each at a column and a height with its lines, and arrows between them by their first lines."""
    wide, columns = 176, 1 + max(it[0] for it in boxes)
    step, places, shapes = wide + 46, {}, []
    for column, y, lines in boxes:
        h = 24 + 17 * len(lines)
        places[lines[0]] = (20 + column * step, y, h)
        shapes += box(20 + column * step, y, wide, h, lines)
    for start, end in arrows:
        (x1, y1, h1), (x2, y2, h2) = places[start], places[end]
        if x1 == x2:
            down = y1 < y2
            shapes.append(to(x1 + wide / 2, y1 + h1 if down else y1, x2 + wide / 2, y2 - 2 if down else y2 + h2 + 2))
        else:
            shapes.append(to(x1 + wide, y1 + h1 / 2, x2 - 2, y2 + h2 / 2))
    return page(20 + columns * step - 26, height, title, shapes)


def zone_map():
    """The way of statistics into a map of zones, and to the answer for each zone."""
    boxes = [
        (0, 20, ["chunk of columns", "StatsSet::of_column", "vortex_stats"]),
        (0, 115, ["statistics one by one", "ZoneMapBuilder::put", "vortex_zone_map"]),
        (0, 210, ["arrays of a caller", "batches", "vortex_capi"]),
        (0, 305, ["bytes of a footer", "groups_of", "vortex_parquet"]),
        (1, 20, ["Zone", "rows, a set a column", "vortex_zone_map"]),
        (1, 305, ["row group", "map_of", "vortex_predicates"]),
        (2, 162, ["ZoneMap", "a row a zone, a column", "a statistic", "vortex_zone_map"]),
        (3, 20, ["falsifier, satisfier", "PruningPredicate", "vortex_predicates"]),
        (3, 170, ["prune_by", "bound once, evaluated", "on 1,024 zones", "vortex_prune"]),
        (4, 170, ["Verdict", "skipped, whole", "or tested", "a zone"]),
    ]
    arrows = [("chunk of columns", "Zone"), ("bytes of a footer", "row group"), ("Zone", "ZoneMap"), ("statistics one by one", "ZoneMap"), ("arrays of a caller", "ZoneMap"), ("row group", "ZoneMap")]
    arrows += [("ZoneMap", "prune_by"), ("falsifier, satisfier", "prune_by"), ("prune_by", "Verdict")]
    return flow("Statistics become a map of zones, and a verdict on each", 400, boxes, arrows)


def scan_way():
    """The way of a scan: proofs once, a verdict on each part, rows of the parts that are tested."""
    boxes = [
        (0, 20, ["predicate, rules", "plain, typed", "vortex_expr"]),
        (0, 150, ["parts", "scan: a binder each", "scan_zones: a map", "scan_ranges: a chunk"]),
        (1, 20, ["two proofs", "falsify, satisfy", "vortex_rewrite"]),
        (2, 90, ["verdict on a part", "scan::by_binders", "scan::zones", "scan::ranges"]),
        (3, 20, ["skipped", "no row is read", "scan::outcome"]),
        (3, 115, ["whole", "all rows, untested", "scan::outcome"]),
        (3, 210, ["tested", "1,024 rows together", "scan::select"]),
        (4, 115, ["Scan", "selected rows, skipped", "and whole parts"]),
    ]
    arrows = [("predicate, rules", "two proofs"), ("two proofs", "verdict on a part"), ("parts", "verdict on a part")]
    arrows += [("verdict on a part", it) for it in ("skipped", "whole", "tested")] + [(it, "Scan") for it in ("skipped", "whole", "tested")]
    return flow("A scan proves once, judges each part, and tests the rows that are left", 310, boxes, arrows)


def text_way():
    """The way of a text through the program, from its bytes to the bytes of the answer."""
    boxes = [
        (0, 20, ["bytes", "Source", "vortex_text::streams"]),
        (1, 20, ["lines", "OpenText", "vortex_text::open_text"]),
        (2, 20, ["words", "statistics, rows, joins", "vortex_syntax"]),
        (3, 20, ["DocumentParser", "a line after another", "document_parser"]),
        (3, 140, ["columns, builder", "vortex_text::store", "vortex_zone_map"]),
        (4, 20, ["bad line", "the first that isn't fine", "vortex_text::bad_line"]),
        (2, 140, ["batches of zones", "scan_ranges_from", "vortex_prune"]),
        (1, 140, ["selected rows", "whole before it is", "written"]),
        (0, 140, ["answer", "Sink", "vortex_text::printing"]),
    ]
    placed = {it[2][0]: it for it in boxes}
    shapes = [("bytes", "lines"), ("lines", "words"), ("words", "DocumentParser"), ("DocumentParser", "bad line"), ("DocumentParser", "columns, builder")]
    drawn = flow("A text goes line by line into columns and statistics, and its scan becomes the answer", 240, boxes, shapes)
    back = [("columns, builder", "batches of zones"), ("batches of zones", "selected rows"), ("selected rows", "answer")]
    ends = [(20 + placed[a][0] * 222, 20 + placed[b][0] * 222 + 176) for a, b in back]
    return drawn.replace("</svg>\n", "\n".join(to(x1, 177.5, x2 + 2, 177.5) for x1, x2 in ends) + "\n</svg>\n")


def pictures():
    drawn = {"pruning": pruning, "way": way, "layers": layers, "zone_map": zone_map, "scan": scan_way, "text": text_way}
    return {f"{FOLDER}/{name}.svg": draw() for name, draw in drawn.items()}


def faults():
    """Pictures that are stale."""
    for f, drawn in pictures().items():
        held = open(f, encoding="utf-8").read() if os.path.exists(f) else ""
        if held != drawn:
            yield f"{f}: stale; checks/picture.py draws it anew"


def main():
    if sys.argv[1:] == ["--check"]:
        found = list(faults())
        print("\n".join(found) or "pictures: all of them are as the script draws them")
        return 1 if found else 0
    os.makedirs(FOLDER, exist_ok=True)
    for f, drawn in pictures().items():
        with open(f, "w", encoding="utf-8") as file:
            file.write(drawn)
    return 0


if __name__ == "__main__":
    sys.exit(main())
