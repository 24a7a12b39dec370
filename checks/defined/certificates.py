"""Certificates: their form, part by part, and the checks by which one is right.

The automaton before the first link has one state, which accepts and steps to itself. A template's table is its least
automaton over First, Second and Other, its states numbered breadth first.
"""

from dataclasses import dataclass

from defined.automata import class_of, table
from defined.json_text import value_of
from defined.logs import ACTIVITIES
from defined.models import CONSTRAINTS, are_texts, constraint_of, is_whole, templates_of
from defined.refusals import Refused
from defined.templates import keeps

CERTIFICATE_BYTES = 134_217_728
CAUSES = ["conflict", "weaker", "first-pass", "second-pass"]


def owes(part, holds):
    if not holds:
        raise Refused("CertShape", part)


@dataclass
class Claim:
    tasks: list
    model: list
    witnesses: list
    # Each with whether it is said to conflict.
    dropped: list
    example: tuple


@dataclass
class Link:
    accepting: list
    columns: list
    next: list
    pairs: list

    def step(self, state, task):
        return self.next[state][self.columns[task]]


def everything(tasks):
    return Link([1], [0] * tasks, [[0]], [])


def is_number(value):
    return is_whole(value) and 0 <= value < 2**32


def ranks(part, value, tasks):
    owes(part, are_texts(value) and all(name in tasks for name in value))
    return tuple(map(tasks.index, value))


def constraint_in(part, item, tasks, known):
    owes(part, isinstance(item, dict))
    try:
        template, activities = constraint_of(item, part, known)
    except Refused:
        owes(part, False)
    owes(part, all(name in tasks for name in activities))
    return template, tuple(map(tasks.index, activities))


def list_in(part, value, name):
    owes(part, isinstance(value.get(name), list))
    return value[name]


def claim_of(report):
    owes(1, isinstance(report, dict) and not (is_whole(report.get("version", 2.0)) and report["version"] != 2))
    tasks = report.get("tasks")
    owes(1, are_texts(tasks) and len(tasks) <= ACTIVITIES)
    owes(1, all(a.encode() < b.encode() for a, b in zip(tasks, tasks[1:])))
    known = templates_of(report)
    items = list_in(2, report, "constraints")
    owes(2, len(items) <= CONSTRAINTS)
    model = [constraint_in(2, item, tasks, known) for item in items]
    witnesses = [ranks(2, item.get("witness"), tasks) for item in items]
    items = list_in(3, report, "dropped")
    owes(3, len(items) <= CONSTRAINTS)
    dropped = [constraint_in(3, item, tasks, known) for item in items]
    owes(3, all(item.get("why") in CAUSES for item in items))
    causes = [item["why"] == "conflict" for item in items]
    return Claim(tasks, model, witnesses, list(zip(dropped, causes)), ranks(4, report.get("example"), tasks))


def are_ascending(value, width):
    """Lists of so many numbers, strictly ascending."""
    if not isinstance(value, list) or not all(isinstance(each, list) and len(each) == width for each in value):
        return False
    return all(is_number(n) for each in value for n in each) and all(a < b for a, b in zip(value, value[1:]))


def is_within(value, bound):
    return isinstance(value, list) and all(is_number(n) and n < bound for n in value)


def link_of(value, tasks, before, constraint):
    owes(5, isinstance(value, dict))
    accepting, rows, columns, pairs = (value.get(name) for name in ["accepting", "next", "columns", "pairs"])
    owes(5, is_within(accepting, 2) and accepting and isinstance(rows, list) and len(rows) == len(accepting))
    owes(5, all(is_within(row, len(accepting)) and len(row) == len(rows[0]) for row in rows))
    owes(5, is_within(columns, len(rows[0])) and len(columns) == tasks and are_ascending(pairs, 3))
    bounds = len(before.accepting), len(table(constraint[0]).accepting), len(accepting)
    owes(5, all(n < bound for each in pairs for n, bound in zip(each, bounds)))
    return Link(accepting, columns, rows, pairs)


def certificate_of(data):
    """The claim, the links and the pairs of each dropped constraint."""
    if len(data) > CERTIFICATE_BYTES:
        raise Refused("Bytes", CERTIFICATE_BYTES)
    value = value_of(data)
    owes(1, isinstance(value, dict))
    claim = claim_of(value.get("report"))
    chain = list_in(5, value, "chain")
    owes(5, len(chain) == len(claim.model))
    links = [everything(len(claim.tasks))]
    for item, constraint in zip(chain, claim.model):
        links.append(link_of(item, len(claim.tasks), links[-1], constraint))
    implied = list_in(6, value, "implied")
    owes(6, len(implied) == len(claim.dropped) and all(are_ascending(pairs, 2) for pairs in implied))
    for pairs, (constraint, _) in zip(implied, claim.dropped):
        bounds = len(links[-1].accepting), len(table(constraint[0]).accepting)
        owes(6, all(q < bounds[0] and t < bounds[1] for q, t in pairs))
    return claim, links, implied


# The checks. Each gives the number of the first item that fails, or None.


def first_wrong(rights):
    return next((number for number, right in enumerate(rights, 1) if not right), None)


def is_witness(claim, place):
    found = [keeps(constraint, claim.witnesses[place]) for constraint in claim.model]
    return not found[place] and all(found[:place] + found[place + 1 :])


def is_linked(claim, before, link, constraint):
    template, activities = constraint
    steps, accepting = table(template).steps, table(template).accepting
    held = set(map(tuple, link.pairs))
    return (0, 0, 0) in held and all(
        (not (before.accepting[p] and accepting[t]) or link.accepting[q])
        and all(
            (before.step(p, task), steps[t][class_of(activities, task)], link.step(q, task)) in held
            for task in range(len(claim.tasks))
        )
        for p, t, q in held
    )


def is_implied(claim, last, pairs, constraint, conflicts):
    template, activities = constraint
    steps, accepting = table(template).steps, table(template).accepting
    held = set(map(tuple, pairs))
    return (0, 0) in held and all(
        not (last.accepting[q] and accepting[t] == conflicts)
        and all((last.step(q, task), steps[t][class_of(activities, task)]) in held for task in range(len(claim.tasks)))
        for q, t in held
    )


def verdict(certificate):
    """None where all checks hold, else the first that fails and the number of its first item."""
    claim, links, implied = certificate
    places = range(len(claim.model))
    checks = [
        (keeps(constraint, claim.example) for constraint in claim.model),
        (is_witness(claim, place) for place in places),
        (is_linked(claim, links[place], links[place + 1], claim.model[place]) for place in places),
        (is_implied(claim, links[-1], pairs, *dropped) for pairs, dropped in zip(implied, claim.dropped)),
    ]
    for number, rights in enumerate(checks, 1):
        wrong = first_wrong(rights)
        if wrong is not None:
            return number, wrong
    return None
