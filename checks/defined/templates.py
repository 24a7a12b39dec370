"""The repertoire: which places of a trace are activated, which are fulfilled, and which constraint is above which."""

# The numbers that a counted template may have.
NUMBERS = range(1, 10)

# A counted template is a word and a number, and asks this of how often its activity stands in a trace.
COUNTED = {
    **{f"Exactly{n}": lambda count, n=n: count == n for n in NUMBERS},
    **{f"AtLeast{n}": lambda count, n=n: count >= n for n in reversed(NUMBERS)},
    **{f"AtMost{n}": lambda count, n=n: count <= n for n in NUMBERS},
}

PLAIN_EXISTENCE = ["Init", "End", "Participation", "AtMostOne"]
MUTUAL = ["ChainSuccession", "AlternateSuccession", "Succession", "CoExistence"]
RESPONSES = ["ChainResponse", "AlternateResponse", "Response"]
PRECEDENCES = ["ChainPrecedence", "AlternatePrecedence", "Precedence"]
NEGATIVE = ["NotCoExistence", "NotSuccession", "NotChainSuccession"]
ONE_SIDED = ["NotRespondedExistence", "NotResponse", "NotPrecedence", "NotChainResponse", "NotChainPrecedence"]

# In the order of their numbers, from 1.
FIRST_REPERTOIRE = [*PLAIN_EXISTENCE, *MUTUAL, *RESPONSES, *PRECEDENCES, "RespondedExistence", *NEGATIVE]
TEMPLATES = [*FIRST_REPERTOIRE, *COUNTED, *ONE_SIDED]

EXISTENCE = [*PLAIN_EXISTENCE, *COUNTED]
# Activated by their second activity, of which the first is the target; the other ones of one side by their first.
BY_SECOND = [*PRECEDENCES, "NotPrecedence", "NotChainPrecedence"]
ONE_SIDE = [*RESPONSES, *PRECEDENCES, "RespondedExistence", *ONE_SIDED]

# The templates of the candidates. Two counted ones have another name in the first repertoire.
CANDIDATES = {"1": FIRST_REPERTOIRE, "2": [name for name in TEMPLATES if name not in ("AtLeast1", "AtMost1")]}

# The same in both orders of their activities.
ONE_ORDER = ["CoExistence", "NotCoExistence"]

# What the place of the whole trace asks.

WHOLE = {
    "Init": lambda trace, a: trace[:1] == (a,),
    "End": lambda trace, a: trace[-1:] == (a,),
    "Participation": lambda trace, a: a in trace,
    "AtMostOne": lambda trace, a: trace.count(a) <= 1,
    **{name: lambda trace, a, asks=asks: asks(trace.count(a)) for name, asks in COUNTED.items()},
}

# What an event asks. It stands at place i, and `other` is the other activity of the constraint.


def next_is(trace, i, other):
    return trace[i + 1 : i + 2] == (other,)


def previous_is(trace, i, other):
    return i > 0 and trace[i - 1] == other


def is_later(trace, i, other):
    return other in trace[i + 1 :]


def is_earlier(trace, i, other):
    return other in trace[:i]


def is_somewhere(trace, i, other):
    return other in trace


def alternates_later(trace, i, other):
    """Some later event is the other one, and none between them is the same as the event at i."""
    later = range(i + 1, len(trace))
    return any(trace[j] == other and trace[i] not in trace[i + 1 : j] for j in later)


def alternates_earlier(trace, i, other):
    """Some earlier event is the other one, and none between them is the same as the event at i."""
    return any(trace[j] == other and trace[i] not in trace[j + 1 : i] for j in range(i))


def none(asks):
    """The contrary."""
    return lambda trace, i, other: not asks(trace, i, other)


# For each template of two activities: what it asks at the first, and what at the second. None: not activated there.
ASKS = {
    "ChainSuccession": (next_is, previous_is),
    "AlternateSuccession": (alternates_later, alternates_earlier),
    "Succession": (is_later, is_earlier),
    "CoExistence": (is_somewhere, is_somewhere),
    "ChainResponse": (next_is, None),
    "AlternateResponse": (alternates_later, None),
    "Response": (is_later, None),
    "ChainPrecedence": (None, previous_is),
    "AlternatePrecedence": (None, alternates_earlier),
    "Precedence": (None, is_earlier),
    "RespondedExistence": (is_somewhere, None),
    "NotCoExistence": (none(is_somewhere), none(is_somewhere)),
    "NotSuccession": (none(is_later), none(is_earlier)),
    "NotChainSuccession": (none(next_is), none(previous_is)),
    "NotRespondedExistence": (none(is_somewhere), None),
    "NotResponse": (none(is_later), None),
    "NotPrecedence": (None, none(is_earlier)),
    "NotChainResponse": (none(next_is), None),
    "NotChainPrecedence": (None, none(previous_is)),
}


def activated(constraint, trace):
    """Each activated place, with whether it is fulfilled."""
    template, activities = constraint
    if template in EXISTENCE:
        return [(len(trace), WHOLE[template](trace, activities[0]))]
    first, second = activities
    at_first, at_second = ASKS[template]
    found = []
    for i, event in enumerate(trace):
        if event == first and at_first:
            found.append((i, at_first(trace, i, second)))
        if event == second and at_second:
            found.append((i, at_second(trace, i, first)))
    return found


def keeps(constraint, trace):
    return all(fulfilled for _, fulfilled in activated(constraint, trace))


# The hierarchy: a constraint of a and b, and those that stand directly below it. `ba` is the turned pair.
BELOW = {
    "Init": ["Participation a"],
    "End": ["Participation a"],
    "ChainSuccession": ["AlternateSuccession ab", "ChainResponse ab", "ChainPrecedence ab"],
    "AlternateSuccession": ["Succession ab", "AlternateResponse ab", "AlternatePrecedence ab"],
    "Succession": ["CoExistence ab", "CoExistence ba", "Response ab", "Precedence ab"],
    "CoExistence": ["RespondedExistence ab", "RespondedExistence ba"],
    "ChainResponse": ["AlternateResponse ab"],
    "AlternateResponse": ["Response ab"],
    "Response": ["RespondedExistence ab"],
    "ChainPrecedence": ["AlternatePrecedence ab"],
    "AlternatePrecedence": ["Precedence ab"],
    "Precedence": ["RespondedExistence ba"],
    "NotCoExistence": ["NotSuccession ab", "NotSuccession ba", "NotRespondedExistence ab", "NotRespondedExistence ba"],
    "NotSuccession": ["NotChainSuccession ab", "NotResponse ab", "NotPrecedence ab"],
    "NotChainSuccession": ["NotChainResponse ab", "NotChainPrecedence ab"],
    "NotRespondedExistence": ["NotResponse ab", "NotPrecedence ba"],
    "NotResponse": ["NotChainResponse ab"],
    "NotPrecedence": ["NotChainPrecedence ab"],
    **{f"Exactly{n}": [f"AtLeast{n} a", f"AtMost{n} a"] for n in NUMBERS},
    **{f"AtLeast{n}": [f"AtLeast{n - 1} a"] for n in NUMBERS if n > 1},
    "AtLeast1": ["Participation a"],
    "AtMost1": ["AtMostOne a"],
    "AtMostOne": ["AtMost2 a"],
    **{f"AtMost{n}": [f"AtMost{n + 1} a"] for n in range(2, 9)},
}


def directly_below(constraint):
    template, activities = constraint
    for text in BELOW.get(template, []):
        name, letters = text.split()
        yield name, tuple(activities["ab".index(letter)] for letter in letters)


def below(constraint):
    """All constraints that the hierarchy puts below this one: it is transitive."""
    found = set()
    for lower in directly_below(constraint):
        found |= {lower} | below(lower)
    return found
