"""The exact test of a dataset: the rings of its table by the moves, its weight and the two sums."""
import functools
import math

from . import kinds
from .siblings import Refused, grids, weights


@functools.lru_cache(maxsize=1000)
def rings(rows, observed, moves, limit):
    """The rings of a table, which are the whole fiber; refuses more tables than the limit."""
    found = grids.rings(observed, moves, limit)
    if few(rows, observed):
        assert {table for ring in found for table in ring} == {observed, *weights.fiber(rows, observed)}
    return found


def few(rows, observed):
    """Whether the fiber is soon listed cell by cell."""
    margins = [sum(a * x for a, x in zip(row, observed)) for row in rows]
    bounds = (min(m // row[j] for row, m in zip(rows, margins) if row[j]) for j in range(len(observed)))
    return math.prod(bound + 1 for bound in bounds) <= 2000


def figures(model, moves, observed, limit):
    """The sizes of the rings, the weight, the sum of those at most that one, and the sum of all."""
    rows, scale, base = model
    found = rings(rows, observed, tuple(moves), limit)
    groups = kinds.groups(rows, scale)
    all_weights = [weights.weight_of(groups, base, table) for ring in found for table in ring]
    weight, whole = all_weights[0], sum(all_weights)
    if whole >= weights.TOP:
        raise Refused("TooWide", 5)
    return tuple(map(len, found)), weight, sum(w for w in all_weights if w <= weight), whole
