"""Looks at what a caller gives before anything of it is sent."""
from __future__ import annotations

import operator
from collections.abc import Mapping, Sequence
from typing import Any

from .numbers import numpy

# What to do about weights that are fractions.
SCALE = ", such as round(1000 * weight)"

# A vertex is below this number, and so many vertices a graph has at most.
MOST_VERTICES = 1 << 24

# The least weight, and the first number above all weights.
LEAST_WEIGHT, WEIGHT_BOUND = -(1 << 63), 1 << 63


def whole(given: Any, name: str, least: int, bound: int) -> int:
    """Returns an argument as an int from `least` to `bound` - 1.

    Raises TypeError if it is no whole number (a float, a truth value, None, a text) and ValueError if it is out of range; both
    name the argument.
    """
    if isinstance(given, bool):
        raise TypeError(f"{name} is {given}, a truth value; a whole number is wanted")
    try:
        number = operator.index(given)
    except TypeError:
        hint = SCALE if isinstance(given, float) and name.startswith("weight") else ""
        raise TypeError(f"{name} is {given!r}, a {type(given).__name__}; a whole number is wanted{hint}") from None
    if not least <= number < bound:
        raise ValueError(f"{name} is {number}, and has to be from {least} to {bound - 1}")
    return number


def vertex(given: Any, name: str = "vertex") -> int:
    """Returns a vertex as an int from 0 to 16,777,215."""
    return whole(given, name, 0, MOST_VERTICES)


def weight(given: Any, name: str = "weight") -> int:
    """Returns a weight as an int from -2^63 to 2^63 - 1."""
    return whole(given, name, LEAST_WEIGHT, WEIGHT_BOUND)


def column(given: Any, name: str, least: int, bound: int, first: int = 0) -> Any:
    """Returns a column of whole numbers, a list of int or a NumPy array, all of them from `least` to `bound` - 1.

    Raises TypeError or ValueError as `whole` does, and names the first that is wrong by its place; that of the column's first is
    `first`.
    """
    if numpy is not None and isinstance(given, numpy.ndarray):
        return array_column(given, name, least, bound, first)
    numbers = given if isinstance(given, (list, tuple)) else list(given)
    if set(map(type, numbers)) <= {int} and (not numbers or (min(numbers) >= least and max(numbers) < bound)):
        return numbers
    return [whole(it, f"{name} {at}", least, bound) for at, it in enumerate(numbers, first)]


def array_column(given: Any, name: str, least: int, bound: int, first: int) -> Any:
    """Does the same for a NumPy array."""
    assert numpy is not None
    if given.ndim != 1 or given.dtype.kind not in "iu":
        raise TypeError(f"the {name}s are {given.dtype} in {given.ndim} dimensions; one row of whole numbers is wanted{SCALE if name == 'weight' else ''}")
    if len(given) and not (int(given.min()) >= least and int(given.max()) < bound):
        for at, it in enumerate(given.tolist(), first):
            whole(it, f"{name} {at}", least, bound)
    return given.astype(numpy.int64)


def greatest(sources: Any, destinations: Any) -> tuple[int, int]:
    """Returns the greatest vertex of columns that are not empty, and the first place at which an edge names it."""
    if numpy is not None and isinstance(sources, numpy.ndarray) and isinstance(destinations, numpy.ndarray):
        ends = numpy.maximum(sources, destinations)
        at = int(ends.argmax())
        return int(ends[at]), at
    ends = list(map(max, sources, destinations))
    farthest = max(ends)
    return int(farthest), ends.index(farthest)


def are_ones(weights: Any) -> bool:
    """Says whether all numbers of a column are 1."""
    if isinstance(weights, list):
        return weights.count(1) == len(weights)
    return all(it == 1 for it in weights) if not hasattr(weights, "all") else bool((weights == 1).all())


def weight_of(given: Any, default: Any) -> Any:
    """Returns the weight of an edge's third part: itself, or what a mapping has as `weight`."""
    return given.get("weight", default) if isinstance(given, Mapping) else given


def edge_parts(edges: Sequence[Any], first: int, default: Any) -> tuple[list[Any], list[Any], list[Any]]:
    """Returns the sources, destinations and weights of edges; each is a pair, or has a weight, or a mapping with one, besides.

    `first` is the number of the first, for the TypeError if one is no edge.
    """
    sources, destinations, weights = [], [], []
    for at, edge in enumerate(edges, first):
        try:
            source, destination, *more = edge
        except TypeError:
            raise TypeError(f"edge {at} is {edge!r}, and not a pair of vertices") from None
        except ValueError:
            raise ValueError(f"edge {at} is {edge!r}, and not a pair of vertices") from None
        if len(more) > 1:
            raise ValueError(f"edge {at} is {edge!r}, and not two vertices and a weight")
        sources.append(source)
        destinations.append(destination)
        weights.append(weight_of(more[0], default) if more else default)
    return sources, destinations, weights
