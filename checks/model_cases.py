"""Command lines that checks/by_definition.py tries: models that are read back, checks, tables, generated logs."""

import json
import re

from cases import A_MODEL, BY_NUMBER, REDUCED, STAGES, Case
from cases import as_csv, as_lines, characters, hard_name, random_log, random_thresholds
from defined.generator import generated
from defined.outcome import Definitions, Input
from defined.templates import EXISTENCE, FIRST_REPERTOIRE, TEMPLATES

MODEL = "model.json"
CHECK = ["check", MODEL]


def on_model(tries, model, log=b"ab\na\n", more=()):
    return Case(tries, [*CHECK, *more], log, {MODEL: model})


# Random models.


def item(template, *names):
    return {"template": template, "parameters": [[name] for name in names]}


def random_item(chance, names, templates):
    template = chance.choice(templates)
    return item(template, *chance.sample(names, 1 if template in EXISTENCE else 2))


def turned(each):
    """The same template, with its names in the other order."""
    return each | {"parameters": each["parameters"][::-1]}


def shuffled(chance, value):
    members = list(value.items())
    chance.shuffle(members)
    return dict(members)


# Members that a model is read past.
PASSED = [
    ("support", 0.98), ("confidence", [1, 2]), ("witness", []), ("by", None), ("Template", "Init"),
    ("", {"template": 7}),
]


def random_model(chance, names):
    """A few constraints, some twice, some in both orders; with `tasks` or not; with members that are read past."""
    templates = chance.choice([FIRST_REPERTOIRE, TEMPLATES])
    items = [random_item(chance, names, templates) for _ in range(chance.randint(0, 6))]
    items += chance.choices(items, k=chance.randint(0, 2)) if items else []
    items += [turned(each) for each in items if chance.random() < 0.2]
    value = {"constraints": [shuffled(chance, each | dict(chance.sample(PASSED, chance.randint(0, 2)))) for each in items]}
    if chance.random() < 0.5:
        value["tasks"] = chance.choices([*names, "unused"], k=chance.randint(0, 5))
    if templates is TEMPLATES and chance.random() < 0.9:
        value["version"] = 2
    elif chance.random() < 0.3:
        value["version"] = chance.choice([1, 1.0, 2.0, 2.5, "2", None, [2]])
    spaces = {"indent": chance.choice([None, 1, "\t"]), "ensure_ascii": chance.random() < 0.5}
    return json.dumps(shuffled(chance, value), **spaces).encode()


def random_checks(chance):
    log = random_log(chance)
    names = ["a", "b", "c", "d", "not in the log", "é"]
    for _ in range(4):
        model = random_model(chance, chance.sample(names, chance.randint(2, 5)))
        yield on_model("checks of string logs at random", model, as_lines(log))
        yield on_model("checks of CSV logs at random, ordered by number", model, as_csv(log, chance), BY_NUMBER)
        yield Case("checks with the model on standard input", ["check", "-", "log.txt"], model, {"log.txt": as_lines(log)})


def each_template(chance):
    """All templates of two names, each in both orders, on one log."""
    for templates, version in [(FIRST_REPERTOIRE, {}), (TEMPLATES, {"version": 2})]:
        items = [item(template, *([a] if template in EXISTENCE else [a, b])) for template in templates for a, b in ["ab", "ba"]]
        model = json.dumps({"constraints": items, **version}).encode()
        yield on_model("checks of each template", model, as_lines(random_log(chance, "abc")))


def hard_names_in_models(chance):
    names = list({hard_name(chance, ["\n", "\r"]) for _ in range(6)} | {"a", "b"})
    log = random_log(chance, names)
    model = random_model(chance, names)
    yield on_model("names in models that are hard to read or write", model, as_csv(log, chance), BY_NUMBER)


def reports_checked(chance):
    """The report of each stage, as it is defined, is a model: of its own log, and of another one."""
    text, other = as_lines(random_log(chance)), as_lines(random_log(chance, "abxy"))
    thresholds = random_thresholds(chance)
    for stage in STAGES:
        words = ["mine", "--stage", stage, f"--repertoire={chance.choice('12')}", *thresholds]
        report = Definitions(100).outcome(words, lambda name: Input(text)).out
        yield on_model("reports checked against their own log", report, text)
        yield on_model("reports checked against another log", report, other)


# Models at fault.


def constraints(*texts):
    return '{"constraints":[' + ",".join(texts) + "]}"


def passed(text):
    """A model with a member that is read past."""
    return '{"constraints":[],"x":' + text + "}"


NUMBERS = [
    "0", "-0", "-1", "1.5", "1E5", "1e-400", "0e0", "-0.0e-0", "01", "-01", "+1", ".5", "1.", "1.e1", "1e", "1e+", "-",
    "0x10", "NaN", "Infinity", "-Infinity", "1_0", "٣", "1e400", "-1e400", "1" + "0" * 308, "1" + "0" * 309, "9" * 400,
    "1.7976931348623158e308", "1.7976931348623159e308", "18446744073709551616", "-9223372036854775809",
]
TEXTS = [
    r'"\u0000"', r'"\ud83d\ude00"', r'"\ud800"', r'"\udc00"', r'"\ud83dx"', r'"\ud83d\u0041"', r'"\ud83d\ud83d"',
    r'"\uDE00\uD83D"', r'"\/\"\\\b\f\n\r\t"', r'"\x"', r'"\u12g4"', r'"\u123"', r'"\U0041"', r'"\"', '"', '"\t"',
    '"\x1f"', '"\x7f\x85\u2028"', "'a'", '"a" "b"',
]
OTHERS = [
    "true", "True", "nul", "null", "nullx", "[]", "[ ]", "[1,]", "[,1]", "[1 2]", "{}", '{"a":1,}', "{a:1}", '{"a" 1}',
    '{"a":}', "{,}", "/**/1", "1//", "[1]]", "", "[", "{", '{"a"', '{"a":', "[[]", "{1:2}", '{"a":1 "b":2}',
    '{"":{"":{"":[]}}}',
]
AROUND = [
    " {}", "{} ", "\t\r\n{}\n\r\t ", "\x0b{}", "{}\x0c", "\u00a0{}", "\ufeff{}", "{}\x00", "{}{}", "{},", "", " ", "{",
    "}", "{}]",
]


def json_texts():
    texts = [passed(text) for text in NUMBERS + TEXTS + OTHERS]
    texts += [text.replace("{}", '{"constraints":[]}') for text in AROUND]
    for levels in [125, 126, 127, 128, 200, 5000]:
        lists, objects = "[" * levels + "]" * levels, '{"a":' * levels + "0" + "}" * levels
        texts += [passed(lists), passed(objects), lists]
    data = [text.encode() for text in texts]
    no_texts = [b"\xff", b"\xc3", b"\xed\xa0\x80", b"\xc0\x80", b"\xf4\x90\x80\x80"]
    data += [passed('"~"').encode().replace(b"~", bad) for bad in no_texts]
    return [on_model("texts that are JSON or not", model) for model in data]


SHAPES = [
    "[]", "null", "7", '"constraints"', "{}", '{"constraints":{}}', '{"constraints":null}', '{"Constraints":[]}',
    '{"constraints ":[]}', '{"constraints":7,"constraints":[]}', '{"constraints":[],"constraints":7}',
    r'{"constraint\u0073":[]}', r'{"constraints\u0000":[]}',
]
VERSIONS = [
    "1", "2", "3", "0", "-1", "1.0", "2.0", "-0", "1e0", "18446744073709551615", "18446744073709551616",
    "-9223372036854775808", "-9223372036854775809", '"2"', "null", "true", "[2]", '{"a":2}', '1,"version":2',
    '2,"version":1', '2,"version":"1"',
]
TASKS = [
    "null", '"a"', "[1]", '[["a"]]', "[]", '["a","a",""]', "{}", '["a",null]', '7,"tasks":[]', '[],"tasks":7',
    "[true]",
]


def shapes():
    texts = SHAPES + [passed("[]").replace('"x":[]', f'"version":{text}') for text in VERSIONS]
    texts += [passed("[]").replace('"x":[]', f'"tasks":{text}') for text in TASKS]
    # The whole is tried before each constraint, and the shape before what stands in it.
    texts += ['{"constraints":[0],"version":3}', '{"tasks":7,"constraints":[0]}', '{"constraints":[0],"tasks":["a"]}']
    return [on_model("models of another shape", text.encode()) for text in texts]


# Each is an item of `constraints`: the first ones are as they should be.
ITEMS = [
    '{"template":"Init","parameters":[["a"]]}', '{"template":"Response","parameters":[["b"],["a"]]}',
    r'{"template":"Ini\u0074","parameters":[["\u0061"]]}',
    '{"parameters":[[7]],"parameters":[["a"]],"template":"End","x":[[]]}', "null", "[]", '"Init"', "7", "{}",
    '{"template":"Init"}', '{"parameters":[["a"]]}', '{"template":7,"parameters":[["a"]]}',
]
ITEMS += [
    '{"template":"Init","parameters":%s}' % text
    for text in ["null", '"a"', "{}", '["a"]', '[["a"],7]', "[[7]]", '[["a",7]]', '[[["a"]]]']
]
ITEMS += ['{"template":"%s","parameters":[["a"]]}' % text for text in ["init", "Init ", "", "AtLeast2", "Respond", "Init\\u0000"]]
ITEMS += ['{"template":"init","parameters":%s}' % text for text in ["[]", "[[7]]", "[[]]", "7"]]
ITEMS += ['{"template":"Init","parameters":%s}' % text for text in ["[]", "[[]]", '[["a"],["b"]]', '[["a","a"]]', '[["a"],[]]']]
PARAMETERS = [
    '[["a"]]', '[["a","b"]]', '[["a"],["b","c"]]', '[["a"],["b"],["c"]]', '[["a","a"],["a"]]', '[["a"],["a"]]',
    '[[""],[""]]', "[[],[]]",
]
ITEMS += ['{"template":"%s","parameters":%s}' % (name, text) for name in ["Response", "CoExistence"] for text in PARAMETERS]
ITEMS += ['{"template":"Response","parameters":[["é"],["e\u0301"]]}', '{"template":"Response","parameters":[["a"],["A"]]}']


def items():
    texts = [constraints(*before, text) for text in ITEMS for before in [[], ITEMS[:2]]]
    return [on_model("constraints in models", text.encode()) for text in texts]


def random_items(chance):
    """Several, so that the first at fault decides; the log is at fault too, or can't be read."""
    for _ in range(3):
        text = constraints(*chance.choices(ITEMS[:4], k=chance.randint(0, 3)), *chance.choices(ITEMS, k=chance.randint(1, 3)))
        log = chance.choice([b"ab\n", b"ab\n\xff\n"])
        yield on_model("constraints in models, several at fault", text.encode(), log)
        yield on_model("constraints in models, several at fault", text.encode(), log, ["nowhere"])


TOKEN = re.compile(rb'"[^"]*"|[0-9]+')
TOKENS = [
    b"7", b'"a"', b'"Response"', b"null", b"[]", b"{}", b'"constraints"', b'"template"', b'"parameters"', b'["a"]',
]


def token_changed(chance, data):
    """A text or a number in place of another."""
    token = chance.choice(list(TOKEN.finditer(data)))
    return data[: token.start()] + chance.choice(TOKENS) + data[token.end() :]


def bytes_changed(chance, data):
    place = chance.randrange(len(data))
    piece = bytes(chance.choices(b'[]{},:"\\abIn0129.-e \n\x00\xff', k=chance.randint(0, 2)))
    return data[:place] + piece + data[place + chance.randint(0, 2) :]


def mutated_models(chance):
    for change in [token_changed] * 4 + [bytes_changed] * 2:
        model = change(chance, random_model(chance, ["a", "b", "c", "é"]))
        yield on_model("models with a token or some bytes changed", model, as_lines(random_log(chance)))


# Inputs and outputs that fail, of the commands with a model and of those without inputs.


def faults_of_models():
    files = {"folder": None, "log.txt": b"ab\n", "bad.txt": b"\xff\n", MODEL: A_MODEL, "bad.json": b"{"}
    logs = ["nowhere", "folder", "log.txt", "bad.txt", "-"]
    for model in ["nowhere", "folder", f"{MODEL}/deeper", "", "bad.json", MODEL, "log.txt"]:
        yield from (Case("models and logs that can't be read", ["check", model, log], b"ab\n", files) for log in logs)


def failing_models(chance):
    log = as_lines(random_log(chance))
    for text in [b"", A_MODEL, A_MODEL[:-1], b"[]"]:
        yield Case("reads of models that fail", ["check", "-", "log.txt"], text, {"log.txt": log}, fails=True)
    for text in [log, log[:-1], log + b"\xff\n", log + b"\xff"]:
        yield Case("reads behind a model that fail", CHECK, text, {MODEL: A_MODEL}, fails=True)


def models_cut(chance):
    names = ["a", "é", "€", "\U0001f600"]
    model, log = random_model(chance, names), as_lines(random_log(chance, names))
    for per_read in [1, 2, 3]:
        yield Case("models and logs that reads cut anywhere", ["check", "-", "log.txt"], model, {"log.txt": log}, per_read)
        yield Case("models and logs that reads cut anywhere", CHECK, log, {MODEL: model}, per_read)


def short_outputs(chance):
    log = as_lines(random_log(chance))
    lists = [
        ["gen"], ["sample"], CHECK, ["mine", "--out", "table"], ["check"], ["gen", "--letters=0"],
        ["check", "log.txt"],
    ]
    inputs = {"stdin": log, "files": {MODEL: A_MODEL, "log.txt": b"{"}}
    for room in [0, 1, chance.randint(2, 60)]:
        for words in lists:
            for short in ["out", "err"]:
                yield Case("outputs that fail, of further commands", words, **inputs, short=short, room=room)


# Tables.


def tables(chance):
    log = random_log(chance)
    hard = random_log(chance, list({hard_name(chance, ["\n", "\r"]) for _ in range(3)}))
    for stage in STAGES:
        words = ["mine", "--out", "table", "--stage", stage, *random_thresholds(chance)]
        yield Case("tables of models", words, as_lines(log))
        yield Case("tables of models", words + BY_NUMBER, as_csv(log, chance))
        yield Case("tables with names that are hard to read or write", words + BY_NUMBER, as_csv(hard, chance))
    yield Case("tables at the default thresholds", ["mine", "--out=table"], as_lines(log * 4))


def tables_by_hand():
    for stage in STAGES:
        for text in [b"", b"\n", b"a\n", b"a\n" * 200 + b"b\n" * 199, b"\xff\n"]:
            yield Case("tables by hand", ["mine", "--out=table", "--stage", stage, "--support=0.5", "--interest=0"], text)
    for stage in REDUCED:
        yield Case("tables by hand", ["mine", "--out=table", "--stage", stage, "--max-states=2"], b"ab\nab\n")


# Generated logs.


def generated_logs(chance):
    numbers = {"seed": chance.randrange(2**32), "traces": chance.randint(0, 30)}
    numbers |= {"length": chance.randint(1, 6), "letters": chance.randint(1, 3)}
    yield Case("generated logs", ["gen", *(f"--{name}={number}" for name, number in numbers.items())])
    text = generated(*numbers.values())
    stage, out = chance.choice(STAGES), chance.choice(["json", "table"])
    yield Case("generated logs mined", ["mine", "--stage", stage, "--out", out, *random_thresholds(chance)], text)


def generated_at_edges():
    """Seeds about the modulus, where two give one log, and each number at both ends of its range."""
    for seed in [0, 1, 2_147_483_645, 2_147_483_646, 2_147_483_647, 4_294_967_292, 4_294_967_293, 4_294_967_295]:
        yield Case("generated logs at the edges", ["gen", "--seed", str(seed)])
    for word in ["--traces=0", "--traces=1", "--length=1", "--length=1000", "--letters=1", "--letters=2", "--letters=26"]:
        yield Case("generated logs at the edges", ["gen", word])
    for seed in [0, 7]:
        yield Case("samples", ["sample", "--seed", str(seed)])
    yield Case("samples", ["sample"], b"\xff")


# Limits.


def many(count, text):
    return constraints(*[text] * count).encode()


def model_limits():
    good = ITEMS[0]
    for more in [0, 1]:
        spaces = b" " * (16_777_216 - len(A_MODEL) + more)
        yield on_model("limits: bytes of a model", A_MODEL + spaces)
        yield on_model("limits: bytes of a model", b"[" + A_MODEL + spaces[1:])
    for count in [65_536, 65_537]:
        yield on_model("limits: constraints of a model", many(count, good))
        yield on_model("limits: constraints of a model", many(count, "0"))
    yield on_model("limits: constraints of a model", many(65_537, "0").replace(b"{", b'{"version":3,', 1))
    yield from names_of_models()
    # The log of a check is kept, and read by itself.
    line = b"a" * 1_048_576
    for log in [line + b"a", b"\n" * 1_048_576, (line + b"\n") * 16, characters(1001), b"\n" * 1_048_575]:
        yield on_model("limits: logs that are checked", A_MODEL, log)
    for traces, length in [(16_777, 1000), (986_895, 17), (1_048_575, 16)]:
        yield Case("limits: generated events", ["gen", f"--traces={traces}", f"--length={length}", "--letters=26"])


def names_of_models():
    """Names of `tasks` and names of constraints, together or by themselves."""
    names = list(characters(1001).decode())

    def model(tasks, *items):
        return on_model("limits: activities of a model", json.dumps({"tasks": tasks, "constraints": list(items)}).encode())

    yield model(names[:1000])
    yield model(names[:1000] * 2, item("Init", names[0]))
    yield model(names, 0)
    yield model(names[:1000], item("Response", names[0], names[1]), item("Init", names[1000]), 0)
    yield model(names[:999], item("Response", names[999], names[1000]))
    yield model(names[:999], item("Response", names[999], names[999]))
    yield model([], *(item("Init", name) for name in names[:1000]))
    yield model([], *(item("Init", name) for name in names), 0)
    yield on_model("limits: activities of a model", json.dumps({"tasks": names, "constraints": [0] * 65_537}).encode())


# All.

EACH_SEED = [
    random_checks, each_template, hard_names_in_models, reports_checked, random_items, mutated_models, tables,
    generated_logs,
]
SOMETIMES = [failing_models, models_cut, short_outputs]


def by_hand():
    for make in [json_texts, shapes, items, faults_of_models, tables_by_hand, generated_at_edges]:
        yield from make()


def at_random(chance, number):
    for make in EACH_SEED + SOMETIMES * (number % 5 == 0):
        yield from make(chance)


def limits(chance):
    yield from model_limits()
