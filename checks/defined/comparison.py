"""Models compared, analysed and watched, over their names and one symbol more, the last.

What is said of all traces is found in two ways: by trying all traces up to a length, and by automata. Where a trace
that was tried decides, both have to agree.
"""

from defined.automata import automaton_of, breadth_first, search, told_apart
from defined.reduction import short_traces
from defined.refusals import Refused
from defined.templates import keeps


def refuse_wide(phase, size, constraints, states):
    """Refuses the shortest part from the start on that tells more traces apart than the number of states."""
    for length in range(len(constraints) + 1):
        if told_apart(size, constraints[:length]) > states:
            raise Refused("States", phase, length)


def keeps_all(constraints, trace):
    return all(keeps(constraint, trace) for constraint in constraints)


def agree(tried, known):
    """What was tried decides where it found a trace; the automaton may know of a longer one."""
    assert tried is None or tried == known, (tried, known)
    return known


# Comparing.


def least_outside(first, second, size, most):
    """The least trace that keeps the first list and not the second."""
    traces, _ = short_traces(size, most)
    tried = next((trace for trace in traces if keeps_all(first, trace) and not keeps_all(second, trace)), None)
    one, other = automaton_of(size, tuple(first)), automaton_of(size, tuple(second))
    pairs = breadth_first(
        (0, 0),
        range(size),
        lambda pair, s: (one.steps[pair[0]][s], other.steps[pair[1]][s]),
        lambda pair: one.accepting[pair[0]] and not other.accepting[pair[1]],
    )
    return agree(tried, search(pairs)[0])


VERDICTS = {(False, False): "equal", (False, True): "stronger", (True, False): "weaker", (True, True): "neither"}


def compared(first, second, size, states, most):
    """The verdict, and the least traces that keep one list alone: the first has more traces where it has one alone."""
    refuse_wide(5, size, first, states)
    refuse_wide(6, size, second, states)
    only_first, only_second = least_outside(first, second, size, most), least_outside(second, first, size, most)
    return VERDICTS[only_first is not None, only_second is not None], only_first, only_second


# Analysing.


def live_states(automaton):
    """Those from which some trace is accepted."""
    live = {state for state, accepts in enumerate(automaton.accepting) if accepts}
    while True:
        more = {state for state, row in enumerate(automaton.steps) if live & set(row)} | live
        if more == live:
            return live
        live = more


def first_traces(automaton, count):
    """The first that it accepts, in shortlex order."""
    live = live_states(automaton)
    found, level = [], [((), 0)] if 0 in live else []
    while level and len(found) < count:
        found += [trace for trace, state in level if automaton.accepting[state]]
        steps = ((trace, automaton.steps[state]) for trace, state in level)
        level = [((*trace, s), to) for trace, row in steps for s, to in enumerate(row) if to in live]
    return found[:count]


def analysed(constraints, size, states, count, most):
    """The least trace that keeps all, the dead symbols but the last, the numbers of redundant ones, the first traces."""
    refuse_wide(5, size, constraints, states)
    for constraint in range(len(constraints)):
        refuse_wide(7, size, constraints[:constraint] + constraints[constraint + 1 :], states)
    automaton = automaton_of(size, tuple(constraints))
    live = live_states(automaton)
    dead = [s for s in range(size - 1) if not any(automaton.steps[state][s] in live for state in live)]
    redundant = []
    for place, constraint in enumerate(constraints):
        others = constraints[:place] + constraints[place + 1 :]
        if least_outside(others, [constraint], size, most) is None:
            redundant.append(place + 1)
    least = first_traces(automaton, 1)
    found = first_traces(automaton, count)
    kept = [trace for trace in short_traces(size, most)[0] if keeps_all(constraints, trace)]
    assert kept[:count] == found[: len(kept[:count])] and not any(set(trace) & set(dead) for trace in kept)
    return (least[0] if least else None), dead, redundant, found


# Watching.


def standing(constraints, trace, size, most):
    """K, k, b or B: whether all continuations keep the list, the trace does, it doesn't, or none does."""
    automaton, state = automaton_of(size, tuple(constraints)), 0
    for symbol in trace:
        state = automaton.steps[state][symbol]
    reached, fresh = {state}, {state}
    while fresh:
        fresh = {to for at in fresh for to in automaton.steps[at]} - reached
        reached |= fresh
    ends = {automaton.accepting[at] for at in reached}
    told = {frozenset([True]): "K", frozenset([False]): "B"}.get(frozenset(ends), "k" if automaton.accepting[state] else "b")
    tried = {keeps_all(constraints, (*trace, *more)) for more in short_traces(size, most)[0]}
    assert tried <= ends and keeps_all(constraints, trace) == automaton.accepting[state], (constraints, trace)
    return told
