"""Command lines that checks/by_definition.py tries: models compared, analysed and watched, and certificates verified."""

import json

from cases import A_MODEL, Case
from cases import as_lines, hard_name, random_log
from model_cases import MODEL, item, random_model

FIRST, SECOND, LOG, CERTIFICATE = "first.json", "second.json", "events.txt", "certificate.json"
COMPARE = ["compare", FIRST, SECOND]


def model(*items, **more):
    return json.dumps({"constraints": list(items), **more}).encode()


def on_models(tries, first, second, more=()):
    return Case(tries, [*COMPARE, *more], b"", {FIRST: first, SECOND: second})


def on_one(tries, text, *more):
    return Case(tries, ["analyse", MODEL, *more], b"", {MODEL: text})


def watching(tries, text, log, more=()):
    return Case(tries, ["monitor", MODEL, *more], log, {MODEL: text})


# Comparisons and analyses.


def random_comparisons(chance):
    names = ["a", "b", "c", "é"]
    for _ in range(4):
        first, second = (random_model(chance, chance.sample(names, chance.randint(2, 3))) for _ in range(2))
        yield on_models("models compared at random", first, second)
        yield on_models("models compared with themselves", first, first)
        states = ["--max-states", str(chance.randint(1, 6))]
        yield on_models("models compared with few states", first, second, states)
        yield on_one("models analysed at random", first, f"--first={chance.randint(0, 20)}")
        yield on_one("models analysed with few states", first, *states)


def one_more_or_less(chance):
    """A model against itself without one constraint."""
    value = json.loads(random_model(chance, ["a", "b", "c"]))
    less = value | {"constraints": value["constraints"][1:]}
    for first, second in [(value, less), (less, value)]:
        texts = [json.dumps(each).encode() for each in [first, second]]
        yield on_models("models compared with one constraint less", *texts)


def compared_by_hand():
    chain, alternate = item("ChainResponse", "a", "b"), item("AlternateResponse", "a", "b")
    nothing = model(item("Init", "a"), item("Participation", "b"), item("NotCoExistence", "a", "b"))
    for first, second in [([chain], [alternate]), ([alternate], [chain]), ([item("Init", "a")], [item("End", "a")])]:
        yield on_models("models compared by hand", model(*first), model(*second))
        yield on_models("models compared by hand", model(*first), model(*second), ["--max-states=1"])
    for other in [model(), model(tasks=["a", "b"]), nothing, model(chain)]:
        yield on_models("models compared by hand", other, model())
        yield on_models("models compared by hand", nothing, other)
        yield on_one("models analysed by hand", other)
        for first in [0, 1, 20]:
            yield on_one("models analysed by hand", other, "--first", str(first))
    dead = model(item("Init", "a"), item("NotCoExistence", "a", "b"), item("Participation", "a"))
    yield on_one("models analysed by hand", dead)
    yield on_one("models analysed by hand", model(item("AtMostOne", "a"), item("End", "a"), tasks=["b"]), "--first=20")
    # Narrow with each of its prefixes, and wide without its first constraint.
    narrowed = model(chain, item("NotCoExistence", "b", "a"), item("ChainSuccession", "a", "b"))
    for states in [2, 3, 4]:
        yield on_one("models analysed with few states", narrowed, f"--max-states={states}")


def faults_of_two_models():
    files = {"folder": None, "bad.json": b"{", MODEL: A_MODEL, "shape.json": b"[]"}
    names = ["nowhere", "folder", "bad.json", "shape.json", MODEL]
    for first in names:
        yield Case("models that can't be read or compared", ["analyse", first], b"", files)
        for second in [*names, "-"]:
            yield Case("models that can't be read or compared", ["compare", first, second], A_MODEL, files)
    for words in [["-", MODEL], [MODEL, "-"]]:
        yield Case("reads of models that fail", ["compare", *words], A_MODEL, {MODEL: A_MODEL}, fails=True)


# Monitors.


def events(chance, log, names):
    """The events of the traces as lines, the cases mixed, now and then a name that the model doesn't have."""
    left = {str(n): list(trace) for n, trace in enumerate(log)}
    text = ""
    while any(left.values()):
        case = chance.choice([case for case, trace in left.items() if trace])
        name = left[case].pop(0)
        text += f"{case}\t{chance.choice(names) if chance.random() < 0.2 else name}\n"
    return text.encode()


def random_monitors(chance):
    names = ["a", "b", "c", "not in the model", "tab\there", ""]
    for _ in range(4):
        text, log = random_model(chance, chance.sample("abc", 2)), random_log(chance, "abc")
        lines = events(chance, log, names)
        yield watching("monitors at random", text, lines)
        yield watching("monitors with lines at fault", text, lines + chance.choice([b"x\n", b"1\t\xff\n", b"\n"]) + lines)
        yield watching("monitors whose last line has no end", text, lines + chance.choice([b"1\ta", b"1", b"1\ta\r"]))
        yield watching("monitors with few states", text, lines, ["--max-states", str(chance.randint(1, 6))])
        yield Case("monitors of a named log", ["monitor", "-", LOG], text, {LOG: lines})
        hard = hard_name(chance, ["\n", "\r", "\t"])
        yield watching("monitors of names that are hard to write", text, f"{hard}\ta\n{hard}\t{hard}\r\n".encode())


def failing_monitors(chance):
    text, log = random_model(chance, ["a", "b"]), random_log(chance, "ab")
    lines = events(chance, log, ["a", "b"])
    for part in [lines, lines[:-1], lines + b"x\n", lines + b"x"]:
        yield Case("monitors whose log fails", ["monitor", MODEL], part, {MODEL: text}, fails=True)
        yield Case("monitors whose model fails", ["monitor", "-", LOG], text, {LOG: part}, fails=True)
        yield Case("monitors of a log that reads cut", ["monitor", MODEL], part, {MODEL: text}, chance.choice([1, 2, 3]))


def monitors_by_hand():
    both = model(item("Response", "a", "b"), item("AtMostOne", "a"))
    yield watching("monitors by hand", both, b"1\ta\n2\tb\n1\ta\n1\tb\n")
    yield watching("monitors by hand", model(item("NotCoExistence", "a", "b"), item("Participation", "b")), b"1\ta\n")
    for text in [model(), model(tasks=["a"]), both]:
        for log in [b"", b"\n", b"\t\n", b"\ta\n", b"1\t\n", b"1\ta\tb\n", b"1 a\n", b"\xff\n", b"1\ta\r\n"]:
            yield watching("monitors by hand", text, log)
    for count in [1000, 1001]:
        yield watching("monitors of many constraints", model(*[item("Init", "a")] * count), b"1\ta\n")
    yield Case("monitors by hand", ["monitor", MODEL, "nowhere"], b"", {MODEL: both})
    yield Case("monitors by hand", ["monitor", MODEL, "nowhere", "--max-states=1"], b"", {MODEL: both})


# Certificates.


def verifying(tries, text):
    return Case(tries, ["verify", CERTIFICATE], b"", {CERTIFICATE: text})


def certificate(**more):
    """Of no constraint, over one task."""
    report = {"tasks": ["a"], "constraints": [], "dropped": [], "example": []}
    return {"report": report | more, "chain": [], "implied": []}


def certificates_by_hand():
    tries = "certificates by hand"
    init = {"template": "Init", "parameters": [["a"]], "witness": []}
    link = {"accepting": [0, 1], "next": [[1], [1]], "columns": [0], "pairs": [[0, 0, 0], [0, 1, 1], [0, 2, 0]]}
    for value in [{}, [], 7, certificate(), certificate(version=1), certificate(version=2), certificate(version=2.0)]:
        yield verifying(tries, json.dumps(value).encode())
    for tasks in [["a", "a"], ["b", "a"], ["a", 7], "a", [str(n) for n in range(1001)]]:
        yield verifying(tries, json.dumps(certificate(tasks=tasks)).encode())
    for kept in [[init], [init | {"witness": ["b"]}], [init | {"template": "Respond"}], [init | {"template": "Exactly1"}]]:
        for version in [{}, {"version": 2}]:
            yield verifying(tries, json.dumps(certificate(constraints=kept, **version)).encode())
            value = certificate(constraints=kept, example=["a"], **version) | {"chain": [link]}
            yield verifying(tries, json.dumps(value).encode())
    for why in ["conflict", "weaker", "first-pass", "second-pass", "beyond", 7]:
        value = certificate(dropped=[{"template": "End", "parameters": [["a"]], "why": why}])
        for pairs in [[], [[0, 0]], [[0, 0], [0, 1]], [[0, 1], [0, 0]], [[0, 0], [0, 9]], [[0, 0], [1, 1]]]:
            yield verifying(tries, json.dumps(value | {"implied": [pairs]}).encode())
    for text in [b"", b"\xff", b"{", json.dumps(certificate()).encode() + b" x"]:
        yield verifying(tries, text)


# All.

EACH_SEED = [random_comparisons, one_more_or_less, random_monitors]
SOMETIMES = [failing_monitors]


def by_hand():
    for make in [compared_by_hand, faults_of_two_models, monitors_by_hand, certificates_by_hand]:
        yield from make()


def at_random(chance, number):
    for make in EACH_SEED + SOMETIMES * (number % 5 == 0):
        yield from make(chance)


def limits(chance):
    lines = b"".join(b"%d\ta\n" % number for number in range(1_048_575))
    yield watching("monitors of many cases", model(item("Init", "a")), lines + b"x\ta\n")
