"""Partial derivatives and residuals (docs/DEFINITIONS.md, "Derivatives" and "Residuals").

A state is what each pattern of a list may still go on with: a tuple of sets of terms, one for each
pattern. Once one is sure to be held, only what can still come before it is counted. All searches go
over the states in the order of the least texts that lead to them.
"""

import functools

from .patterns import CLASS, EVERY_SYMBOL, GROUP, STAR
from .texts import SYMBOLS

ANY_TEXT = ((STAR, (((CLASS, EVERY_SYMBOL),),)),)  # The term of `.*`.
NOTHING = frozenset()


# These are remembered only for time: groups that hold the empty text many times over, as in
# `(|)(|)(|)`, would take exponential time, and searches ask the same of one pattern very often.
@functools.lru_cache(maxsize=100_000)
def derivatives(term, symbol):
    if not term:
        return frozenset()
    (kind, content), rest = term[0], term[1:]
    if kind == CLASS:
        return frozenset([rest]) if symbol in content else frozenset()
    if kind == GROUP:
        found = (derivatives(alternative + rest, symbol) for alternative in content)
        return frozenset().union(*found)
    inside = {left + term for inner in content for left in derivatives(inner, symbol)}
    return derivatives(rest, symbol).union(inside)


def holds_empty(term):
    for kind, content in term:
        if kind == CLASS or kind == GROUP and not any(holds_empty(inner) for inner in content):
            return False
    return True


@functools.lru_cache(maxsize=100_000)
def residual_behind(residual, symbol):
    return frozenset().union(*(derivatives(term, symbol) for term in residual))


@functools.lru_cache(maxsize=100_000)
def is_match(residual):
    """Whether the pattern holds the text so far."""
    return any(holds_empty(term) for term in residual)


def start(patterns):
    return tuple(frozenset(pattern.terms) for pattern in patterns)


def step(state, symbol):
    return tuple(residual_behind(residual, symbol) for residual in state)


@functools.lru_cache(maxsize=100_000)
def is_sure(residual):
    """Whether the pattern holds every text that goes on from here, by one of its terms."""
    return ANY_TEXT in residual


def cut(state):
    """What counts: of the first pattern that is sure, that it is, and nothing of those after it."""
    for place, residual in enumerate(state):
        if is_sure(residual):
            behind = len(state) - place - 1
            return state[:place] + (frozenset([ANY_TEXT]),) + (NOTHING,) * behind
    return state


def first_match(state):
    """The place of the first pattern that holds the text so far, or None."""
    for place, residual in enumerate(state):
        if is_match(residual):
            return place
    return None


def state_of(patterns, text):
    state = start(patterns)
    for symbol in text:
        state = step(state, symbol)
    return state


def classes_of(terms):
    for term in terms:
        for kind, content in term:
            if kind == CLASS:
                yield content
            else:
                yield from classes_of(content)


def least_alike(patterns):
    """Of symbols that no class tells apart the least: what holds of these holds of all."""
    classes = {content for pattern in patterns for content in classes_of(pattern.terms)}
    least = {}
    for symbol in SYMBOLS:
        least.setdefault(tuple(symbol in content for content in classes), symbol)
    return sorted(least.values())


def states_with_least_texts(*lists, symbols_of=least_alike):
    """Each state once, with the least text that leads there, in the order of these texts.

    A state of several lists of patterns is one of each.
    """
    symbols = list(symbols_of([pattern for patterns in lists for pattern in patterns]))
    first = tuple(cut(start(patterns)) for patterns in lists)
    found = {first}
    row = [("", first)]
    while row:
        longer = []
        for text, states in row:
            yield text, states
            for symbol in symbols:
                behind = tuple(cut(step(state, symbol)) for state in states)
                if behind not in found:
                    found.add(behind)
                    longer.append((text + symbol, behind))
        row = longer


def has_more_states(patterns, limit):
    for number, _ in enumerate(states_with_least_texts(patterns), start=1):
        if number > limit:
            return True
    return False
