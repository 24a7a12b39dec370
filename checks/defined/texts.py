"""What is printed: reports, tables, and the summary of a sample."""

import itertools
import json
from dataclasses import dataclass


def quoted(value):
    return json.dumps(value, ensure_ascii=False, sort_keys=True, separators=(",", ":"))


# Reports.


def score_value(score):
    return [score.numerator, score.denominator]


def constraint_value(constraint, names):
    template, activities = constraint
    return {"parameters": [[names[a]] for a in activities], "template": template}


def scored_value(constraint, scored, names):
    members = zip(["support", "confidence", "interest"], map(score_value, scored))
    return constraint_value(constraint, names) | dict(members)


@dataclass
class Listed:
    """A constraint that a report lists: with its scores and, at stage `model`, its witness, or that it wasn't tested."""

    constraint: tuple
    scores: tuple
    witness: tuple | None = None
    untested: bool = False


def listed_value(each, names):
    value = scored_value(each.constraint, each.scores, names)
    if each.untested:
        value["untested"] = True
    return value if each.witness is None else value | {"witness": named(each.witness, names)}


def dropped_value(constraint, scored, model, names):
    value = scored_value(constraint, scored, names) | {"why": model.why[constraint]}
    if constraint in model.above:
        value["by"] = constraint_value(model.above[constraint], names)
    return value


def named(trace, names):
    return [names[rank] for rank in trace]


def report(names, log, listed, model, repertoire, dropped=None, example=None):
    """`dropped` and `example` aren't there at stage `scores`, and `version` only for the second repertoire."""
    constraints = [listed_value(each, names) for each in listed]
    value = {"constraints": constraints, "events": sum(map(len, log)), "tasks": names, "traces": len(log)}
    if repertoire == "2":
        value["version"] = 2
    if model is not None:
        value["dropped"] = [dropped_value(constraint, scored, model, names) for constraint, scored in dropped]
        value["example"] = named(example, names)
    return (quoted(value) + "\n").encode()


# Tables.


def columns(width, cells, rest):
    return "".join(f"{cell:>{width}} " for cell in cells) + rest + "\n"


def constraint_text(constraint, names):
    template, activities = constraint
    return f"{template}({','.join(quoted(names[a]) for a in activities)})"


def model_table(names, listed, with_witnesses):
    text = columns(12, ["support", "confidence", "interest"], "constraint")
    for each in listed:
        rest = constraint_text(each.constraint, names)
        if with_witnesses:
            rest += " " + ("-" if each.untested else quoted(named(each.witness, names)))
        text += columns(12, [f"{score.numerator}/{score.denominator}" for score in each.scores], rest)
    return text.encode()


def check_table(names, constraints, rows):
    text = columns(10, ["activated", "fulfilled", "kept", "trace", "place"], "constraint")
    for constraint, row in zip(constraints, rows):
        trace, place = row.broken or ("-", "-")
        text += columns(10, [row.activated, row.fulfilled, row.kept, trace, place], constraint_text(constraint, names))
    return text.encode()


def summary(seed, names, log, scored, model):
    lines = {"seed": seed, "traces": len(log), "events": sum(map(len, log)), "tasks": len(names)}
    lines |= {"candidates": len(scored), "listed": len(model.kept)}
    dropped = list(model.why.values())
    lines |= {why: dropped.count(why) for why in ["conflict", "weaker", "first-pass", "second-pass"]}
    return "".join(f"{word} {number}\n" for word, number in lines.items()).encode()


# What is said of models.


def over_one_order(*models):
    """The names of all models in the order of their bytes, and each model's constraints by their places there."""
    names = sorted({name for model in models for name in model[0]}, key=lambda name: name.encode())
    places = {name: place for place, name in enumerate(names)}
    return names, [
        [(template, tuple(places[own[a]] for a in activities)) for template, activities in constraints]
        for own, constraints in models
    ]


def trace_or(trace, names, otherwise):
    """The symbol behind the last name is null."""
    return otherwise if trace is None else quoted(named(trace, [*names, None]))


def comparison(names, verdict, only_first, only_second):
    first, second = trace_or(only_first, names, "-"), trace_or(only_second, names, "-")
    return f"{verdict}\nonly first {first}\nonly second {second}\n".encode()


def analysis(names, least, dead, redundant, found):
    lines = [f"accepts {trace_or(least, names, 'none')}", f"dead {quoted(named(dead, names))}"]
    lines += [f"redundant {quoted(redundant)}", *(f"trace {trace_or(trace, names, '')}" for trace in found)]
    return "".join(f"{line}\n" for line in lines).encode()


# The table of the knowledge base.


def nearest_later(trace, i, b):
    return next((j for j in range(i + 1, len(trace)) if trace[j] == b), None)


def unary_counters(log, a):
    counts = [trace.count(a) for trace in log]
    firsts = sum(trace[:1] == (a,) for trace in log)
    lasts = sum(trace[-1:] == (a,) for trace in log)
    return [sum(counts), sum(n > 0 for n in counts), sum(n > 1 for n in counts), firsts, lasts]


def event_counters(trace, i, b):
    """What the event at i, an a, adds to the counters of a and b that count a's."""
    a, back, mirror = trace[i], trace[::-1], len(trace) - 1 - i
    later, earlier = nearest_later(trace, i, b), nearest_later(back, mirror, b)
    return [
        b not in trace,
        later is None,
        earlier is None,
        later == i + 1,
        earlier == mirror + 1,
        later is not None and a in trace[i + 1 : later],
        earlier is not None and a in back[mirror + 1 : earlier],
    ]


def pair_counters(log, a, b):
    events = [event_counters(trace, i, b) for trace in log for i, event in enumerate(trace) if event == a]
    together = sum(a in trace and b in trace for trace in log)
    return [sum(event[place] for event in events) for place in range(7)] + [together]


def kb_table(names, log):
    ranks = range(len(names))
    text = f"traces {len(log)}\n"
    text += columns(12, ["occurrences", "traces", "repeated", "first", "last"], "activity")
    for a in ranks:
        text += columns(12, unary_counters(log, a), quoted(names[a]))
    heads = "without no_later no_earlier next previous rep_later rep_earlier together"
    text += columns(12, heads.split(), "pair")
    for a, b in itertools.permutations(ranks, 2):
        text += columns(12, pair_counters(log, a, b), f"{quoted(names[a])} {quoted(names[b])}")
    return text.encode()
