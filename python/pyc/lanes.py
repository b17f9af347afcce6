"""Lines beside rows: each goes from one row to another in a lane, and no two lie on one another but those of one goal."""
from __future__ import annotations

from typing import Dict, Hashable, List, NamedTuple, Sequence, Tuple


class Line(NamedTuple):
    """A line, by the heights at which it begins and ends, in pixels, and what it has in common with others."""

    begin: float
    end: float
    goal: Hashable
    """Lines of one goal stand in one lane."""


def lanes_of(lines: Sequence[Line]) -> List[int]:
    """The lane of each line, from 0, which is the nearest to the rows: where short lines stand."""
    spans: Dict[Hashable, Tuple[float, float]] = {}
    for line in lines:
        low, high = spans.get(line.goal, (line.begin, line.begin))
        spans[line.goal] = min(low, line.begin, line.end), max(high, line.begin, line.end)
    lanes: Dict[Hashable, int] = {}
    taken: List[List[Tuple[float, float]]] = []
    for goal, span in sorted(spans.items(), key=lambda it: it[1][1] - it[1][0]):
        lane = next((at for at, others in enumerate(taken) if is_free(others, *span)), len(taken))
        if lane == len(taken):
            taken.append([])
        taken[lane].append(span)
        lanes[goal] = lane
    return [lanes[line.goal] for line in lines]


def is_free(others: Sequence[Tuple[float, float]], low: float, high: float) -> bool:
    """Whether a line from one height to another meets none of these."""
    return all(high < begin or end < low for begin, end in others)
