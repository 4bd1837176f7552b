# SPDX-License-Identifier: Apache-2.0
"""A picture of the zones' bounds under a predicate, by matplotlib (Debian: python3-matplotlib)."""
from __future__ import annotations

from typing import TYPE_CHECKING, Any

from .kinds import Answer
from .predicate import Between, ColumnOf, Compared, Like, NullTest, Predicate, PredicateError

if TYPE_CHECKING:
    from .footers import Footers

# The colours of Okabe and Ito, which are told apart also by those who see red and green alike.
_COLOURS = {Answer.READ: "#E69F00", Answer.SKIP: "#999999", Answer.WHOLE: "#009E73"}
_WORDS = {Answer.READ: "to be read", Answer.SKIP: "skipped", Answer.WHOLE: "whole"}
_BAND = "#56B4E9"
#: Beyond every number of 64 bits.
_FAR = 2.0**70
#: How many texts are written beside the axis.
_TICKS = 12

#: Ends of a range; None is an open one.
Range = tuple[Any, Any]
_ALL: list[Range] = [(None, None)]


def plot(footers: Footers, column: str, predicate: Predicate, axes: Any = None) -> Any:
    """Draws each zone's bounds of a column as a bar, in the colour of what becomes of it, and the values of the column that may satisfy the
    predicate as a band. Answers matplotlib's axes, by default new ones.

    PredicateError where the table hasn't the column; ImportError where matplotlib isn't there.
    """
    from matplotlib import pyplot

    if column not in [it.name for it in footers.columns]:
        raise PredicateError(f"the table has no column {column}")
    axes = axes if axes is not None else pyplot.subplots(figsize=(9, 4.5), layout="constrained")[1]
    answers, bands = footers.prune(predicate), ranges(predicate.lowered(footers.columns), column)
    bounds = [footers._bounds(column, zone) for zone in range(len(footers))]
    place = _places(axes, bounds, bands)
    _draw_bands(axes, bands, place)
    _draw_bars(axes, answers, bounds, place)
    axes.set_xlim(-0.5, max(len(footers), 1) - 0.5)
    axes.set_xlabel("zone")
    axes.set_ylabel(column)
    axes.set_title(predicate.sql(footers.columns), fontsize="medium", wrap=True)
    axes.legend(loc="upper center", bbox_to_anchor=(0.5, -0.14), ncol=5, frameon=False)
    return axes


def _places(axes: Any, bounds: list[Range | None], bands: list[Range]) -> Any:
    """Where a value stands on the axis: a number at itself, a text at its place among those that are drawn."""
    ends = [end for it in [*bounds, *bands] if it is not None for end in it if end is not None]
    if all(isinstance(end, int) for end in ends):
        return int
    texts = sorted(set(ends))
    step = -(-len(texts) // _TICKS)
    axes.set_yticks(range(0, len(texts), step), [_shown(text) for text in texts[::step]])
    return {text: at for at, text in enumerate(texts)}.__getitem__


def _shown(text: object) -> str:
    spelled = text.hex() if isinstance(text, bytes) else str(text)
    return spelled if len(spelled) <= 16 else spelled[:15] + "\u2026"


def _draw_bars(axes: Any, answers: Any, bounds: list[Range | None], place: Any) -> None:
    from matplotlib.collections import PolyCollection

    spans = [(place(least), place(greatest)) for least, greatest in filter(None, bounds) if least <= greatest]
    low, high = (min(it[0] for it in spans), max(it[1] for it in spans)) if spans else (0, 1)
    room = (high - low) / 20 or 0.5
    hatched = False
    # What is to be read lies above what is skipped.
    for answer in (Answer.SKIP, Answer.READ, Answer.WHOLE):
        zones = [zone for zone, found in enumerate(answers) if found == answer]
        boxes = []
        for zone in zones:
            known = bounds[zone]
            if known is not None and known[0] <= known[1]:
                boxes.append((zone, place(known[0]), place(known[1])))
        shapes = [[(at - 0.4, least), (at + 0.4, least), (at + 0.4, greatest), (at - 0.4, greatest)] for at, least, greatest in boxes]
        label = f"{_WORDS[answer]} ({len(zones)})"
        # The edge keeps a bar of one value in sight.
        axes.add_collection(PolyCollection(shapes, facecolors=_COLOURS[answer], edgecolors=_COLOURS[answer], linewidths=1.2, label=label))
        unknown = [zone for zone in zones if bounds[zone] is None]
        hatch: dict[str, Any] = {"color": "none", "edgecolor": _COLOURS[answer], "hatch": "///", "linewidth": 0}
        axes.bar(unknown, high - low + 2 * room, 0.8, low - room, label="bounds not known" if unknown and not hatched else None, **hatch)
        hatched = hatched or bool(unknown)
    axes.set_ylim(low - room, high + room)


def _draw_bands(axes: Any, bands: list[Range], place: Any) -> None:
    if bands == _ALL:
        return
    for number, (low, high) in enumerate(bands):
        label = "the predicate's values" if number == 0 else None
        if low is not None and low == high:
            axes.axhline(place(low), color=_BAND, linewidth=1.5, label=label, zorder=0)
            continue
        start, end = place(low) if low is not None else -_FAR, place(high) if high is not None else _FAR
        axes.axhspan(start, end, color=_BAND, alpha=0.25, linewidth=0, label=label, zorder=0)


def ranges(predicate: Predicate, column: str) -> list[Range]:
    """The ranges outside of which no value of a column satisfies a predicate; whether their ends are included isn't told."""
    return _ranges(predicate.without_not(), column)


def _ranges(predicate: Predicate, column: str) -> list[Range]:
    """Returns the ranges of a predicate without NOT."""
    return predicate.folded(
        lambda leaf: _of_leaf(leaf, column), lambda word, left, right: _met(left, right) if word == "and" else _united(left, right), lambda _: _ALL
    )


def _of_leaf(leaf: Predicate, column: str) -> list[Range]:
    if isinstance(leaf, Between):
        return _ranges(leaf.ends(), column)
    if column not in leaf.names():
        return _ALL
    if isinstance(leaf, Compared):
        return _of_comparison(leaf)
    if isinstance(leaf, NullTest):
        return [] if leaf.wanted else _ALL
    return _of_pattern(leaf) if isinstance(leaf, Like) else _ALL


def _of_comparison(leaf: Compared) -> list[Range]:
    if isinstance(leaf.other, ColumnOf):
        return _ALL
    if leaf.other is None:
        return []
    low, high = (leaf.other if leaf.operator in words else None for words in (("eq", "gt", "ge"), ("eq", "lt", "le")))
    return [(low, high)]


def _of_pattern(leaf: Like) -> list[Range]:
    prefix = leaf.pattern.split("%")[0].split("_")[0].split("\\")[0]
    if leaf.negated or leaf.ignore_case or not prefix:
        return _ALL
    return [(prefix, prefix if prefix == leaf.pattern else prefix + "\U0010ffff")]


def _met(left: list[Range], right: list[Range]) -> list[Range]:
    pairs = [(_last(a[0], b[0]), _first(a[1], b[1])) for a in left for b in right]
    return [it for it in pairs if it[0] is None or it[1] is None or it[0] <= it[1]]


def _last(a: Any, b: Any) -> Any:
    return b if a is None else a if b is None else max(a, b)


def _first(a: Any, b: Any) -> Any:
    return b if a is None else a if b is None else min(a, b)


def _united(left: list[Range], right: list[Range]) -> list[Range]:
    found: list[Range] = []
    # From the lowest beginning on, an open one first.
    for low, high in sorted(left + right, key=lambda it: (it[0] is not None, it[0])):
        if found and (found[-1][1] is None or low is None or low <= found[-1][1]):
            end = found[-1][1]
            found[-1] = (found[-1][0], None if end is None or high is None else max(end, high))
        else:
            found.append((low, high))
    return found
