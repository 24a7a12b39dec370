"""Runs the built program on random bytes, on inputs of each kind with some bytes changed, and on random words.

    python3 checks/fuzz.py [--program PATH] [--seed N] [--count N] [--seconds N] [--megabytes N]

Logs, models, certificates and running cases are changed. What comes out isn't looked up in the definitions: that is what
checks/by_definition.py does. Here every run has to end as the table of README says. The status is one of the table, and
1 only of a command that can answer no. At 0 and 1 standard error is empty. At any other status standard output is empty
(of `monitor` it has whole lines), and standard error has exactly one line, which is that status's (none at 9, which
comes only of words that are no text). No run ends by a signal, takes more processor seconds than `--seconds`,
or more memory than `--megabytes`; out of memory (8) doesn't come within these.

The same seed and count give the same runs. Prints each run that fails, with its words and inputs, and at the end how
often each status came. Ends with 'N passed, M failed' alone on a line, and with 1 where some failed. 2,000 runs take
about a minute.
"""

import argparse
import os
import random
import re
import resource
import subprocess
import sys
import tempfile
from collections import Counter
from dataclasses import dataclass, field

from defined.refusals import STATUSES
from defined.words import COMMANDS

ROOT = os.path.join(os.path.dirname(os.path.abspath(__file__)), "..")

# For each status the lines that may come with it.
LINES = {}
for code, text in STATUSES.values():
    LINES.setdefault(code, []).append(re.compile(f"minerful: {text.replace('{}', '[0-9]+')}\n".encode()))

NO_TEXT = 9

# The commands that end with 1 where the answer is no.
SAY_NO = [b"check", b"compare", b"verify", b"regex"]


@dataclass
class Run:
    words: list
    stdin: bytes = b""
    files: dict = field(default_factory=dict)


# Inputs.


def example(name):
    with open(os.path.join(ROOT, "examples", name), "rb") as file:
        return file.read()


LOGS = [
    b"", b"\n", b"ab\nab\na\n", b"a\r\nb\r\n", "é€a\n\U0001f600\n".encode(), example("orders.txt"),
    b"abcabc\ncba\n" * 3,
]
TABLES = [
    b"case,activity,n\n1,a,1\n2,b,-2\n1,\"b,\"\"c\",3\n", b"\xef\xbb\xbfcase,activity\r\n1,a\r\n",
    example("tickets.csv")[:2000],
]
MODELS = [
    b'{"constraints":[{"template":"Response","parameters":[["a"],["b"]],"support":[1,1]}],"tasks":["a","b"],"version":1}',
    b'{"constraints":[{"template":"Init","parameters":[["r"]]},{"template":"CoExistence","parameters":[["s"],["p"]]}]}',
    b'{"constraints":[],"x":' + b"[" * 120 + b"]" * 120 + b"}",
    '{"constraints":[{"parameters":[["\\u00e9"]],"template":"AtMostOne","x":-1.5e300}],"events":3}'.encode(),
]
EVENTS = [b"1\ta\n2\tb\r\n1\tb\n\n", "\tr\né x\ts\np\tp\tp\n".encode(), b"1\ta\n" * 40]
TOKENS = [
    b"[", b"]", b"{", b"}", b'"', b",", b":", b"\\u", b"\\", b"null", b"1e999", b"-", b"2", b'"a"', b"\n", b"\r",
    b"\x00", b"\xff", b"\xc3", b"\xed\xa0\x80", b"\xef\xbb\xbf", b'"constraints"', b'"template"', b'["a"]',
    b"18446744073709551616", b"case,activity", b'""', b"\t", b'"chain"',
]


def random_bytes(chance):
    """Any bytes, or few different ones."""
    size = chance.choice([0, 1, 5, 40, 400, 4000])
    letters = chance.choice([bytes(range(256)), b"ab\n", b'ab,"\n\r', b"\x00\xff\n", b'{}[]",:a1 '])
    return bytes(chance.choices(letters, k=size))


def changed(chance, data):
    """Bytes dropped, doubled, replaced or put in, a few times over."""
    for _ in range(chance.randint(1, 6)):
        start = chance.randint(0, len(data))
        end = min(len(data), start + chance.choice([0, 0, 1, 2, 10]))
        piece = chance.choice([b"", data[start:end] * 2, chance.choice(TOKENS), bytes([chance.randrange(256)])])
        data = data[:start] + piece + data[end:]
    return data


def some_log(chance):
    return chance.choice([random_bytes(chance), changed(chance, chance.choice(LOGS)), changed(chance, chance.choice(TABLES))])


def some_model(chance):
    return chance.choice([random_bytes(chance), *(changed(chance, chance.choice(MODELS)) for _ in range(3))])


def some_events(chance):
    return chance.choice([random_bytes(chance), *(changed(chance, chance.choice(EVENTS)) for _ in range(3))])


# What the program prints as certificates, which `main` asks for once.
CERTIFICATES = []
CERTIFIED = [b"ab\nab\na\n", example("orders.txt")]


def some_certificate(chance):
    return changed(chance, chance.choice(CERTIFICATES))


# Words.

VALUES = {
    "format": ["string", "csv"],
    "case-column": ["case", "ticket", "", "n"],
    "activity-column": ["activity", "step"],
    "order-column": ["n", "time"],
    "order-as": ["text", "number"],
    "support": ["0", "0.5", "1"],
    "confidence": ["0", "0.999999"],
    "interest": ["0", "0.1"],
    "max-states": ["1", "5", "100"],
    "stage": ["model", "consistent", "scores"],
    "out": ["json", "table", "cert"],
    "seed": ["0", "4294967295"],
    "traces": ["0", "3", "1048575"],
    "length": ["1", "10", "1000"],
    "letters": ["1", "26"],
    "repertoire": ["1", "2"],
    "on-limit": ["stop", "keep"],
    "first": ["0", "3", "20"],
}


def good_words(chance, command, *places):
    """A command with some of its options, each with a value of its own."""
    names = chance.sample(COMMANDS[command][0], chance.randint(0, min(4, len(COMMANDS[command][0]))))
    words = [command, *places, *(f"--{name}={chance.choice(VALUES[name])}" for name in names)]
    # Else a log of many characters has long lists, with many states.
    has_limit = "max-states" in COMMANDS[command][0] and "max-states" not in names
    return words + ["--max-states=100"] * has_limit


def random_word(chance):
    text = "".join(chance.choices(list("-=a0.\t é\U0001f600") + ["--"], k=chance.randint(0, 6)))
    others = [*COMMANDS, "log", "model", "-", "--", *(f"--{name}" for name in VALUES), *sum(VALUES.values(), [])]
    name = f"--{chance.choice(list(VALUES))}={text}"
    return chance.choice([text, name, chance.choice(others), chance.choice(others)])


def random_words(chance):
    words = [os.fsencode(random_word(chance)) for _ in range(chance.randint(0, 6))]
    if chance.random() < 0.1:
        words.insert(chance.randint(0, len(words)), b"--case-column=\xff")
    return [chance.choice([*COMMANDS, "mine"]).encode(), *words] if chance.random() < 0.8 else words


# Runs.


def on_a_log(chance):
    return Run(good_words(chance, chance.choice(["mine", "mine", "kb"])), some_log(chance))


def on_a_model(chance):
    log = chance.choice([chance.choice(LOGS + TABLES), some_log(chance)])
    return Run(good_words(chance, "check", "model"), log, {"model": some_model(chance)})


def on_models(chance):
    """Compared, or one of them analysed."""
    words = good_words(chance, *chance.choice([["compare", "model", "other"], ["analyse", "model"]]))
    return Run(words, b"", {"model": some_model(chance), "other": some_model(chance)})


def on_running_cases(chance):
    model = chance.choice([chance.choice(MODELS), some_model(chance)])
    return Run(good_words(chance, "monitor", "model"), some_events(chance), {"model": model})


def on_a_certificate(chance):
    return Run(["verify", "-"], some_certificate(chance))


def on_words(chance):
    return Run(random_words(chance), chance.choice(LOGS), {"log": b"ab\n", "model": MODELS[0]})


MAKERS = [on_a_log, on_a_log, on_a_model, on_models, on_running_cases, on_a_certificate, on_words]


# What a run does.


@dataclass
class Result:
    status: int
    out: bytes
    err: bytes
    megabytes: float


def read_file(path):
    with open(path, "rb") as file:
        return file.read()


def result_of(program, run, seconds):
    def limit():
        resource.setrlimit(resource.RLIMIT_CPU, (seconds, seconds + 1))
        resource.setrlimit(resource.RLIMIT_CORE, (0, 0))

    with tempfile.TemporaryDirectory() as folder, tempfile.TemporaryDirectory() as beside:
        paths = {os.path.join(folder, name): data for name, data in run.files.items()} | {f"{beside}/in": run.stdin}
        for path, data in paths.items():
            with open(path, "wb") as file:
                file.write(data)
        with open(f"{beside}/in", "rb") as stdin, open(f"{beside}/out", "wb") as out, open(f"{beside}/err", "wb") as err:
            child = subprocess.Popen([program, *run.words], cwd=folder, stdin=stdin, stdout=out, stderr=err, preexec_fn=limit)
            _, code, used = os.wait4(child.pid, 0)
            child.returncode = os.waitstatus_to_exitcode(code)
        return Result(child.returncode, read_file(f"{beside}/out"), read_file(f"{beside}/err"), used.ru_maxrss / 1024)


def is_text(word):
    data = os.fsencode(word)
    return data.decode("utf-8", "ignore").encode() == data


def is_left_behind(run, out):
    """Whether this may stand on standard output where a run is refused: nothing, or of `monitor` whole lines."""
    is_monitor = run.words[:1] and os.fsencode(run.words[0]) == b"monitor"
    return not out or (is_monitor and out.endswith(b"\n"))


def faults_of(run, result, megabytes):
    """What isn't as the table says."""
    texts = all(map(is_text, run.words))
    if result.status < 0:
        yield f"ended by signal {-result.status}"
    elif result.status in (0, 1):
        if result.err:
            yield "standard error isn't empty"
        if result.status == 1 and os.fsencode(run.words[0]) not in SAY_NO:
            yield "status 1 of a command that doesn't say no"
    elif result.status == NO_TEXT:
        if result.err or texts:
            yield "status 9 with a line, or of words that are text"
    elif result.status not in LINES:
        yield f"status {result.status} isn't one that can come"
    elif not any(line.fullmatch(result.err) for line in LINES[result.status]):
        yield f"standard error isn't one line of status {result.status}"
    if result.status not in (0, 1) and not is_left_behind(run, result.out):
        yield "standard output isn't empty"
    if not texts and result.status != NO_TEXT:
        yield "words that are no text, and another status than 9"
    if result.megabytes > megabytes:
        yield f"{result.megabytes:.0f} MB"


def shown(data):
    return repr(data) if len(data) < 400 else f"{data[:400]!r}... ({len(data)} bytes)"


def show(number, run, result, faults):
    print(f"Run {number}: {'; '.join(faults)}: {run.words}, standard input {shown(run.stdin)}")
    for name, data in run.files.items():
        print(f"  file {name}: {shown(data)}")
    print(f"  standard error: {shown(result.err)}")


def options():
    words = argparse.ArgumentParser(description=__doc__.splitlines()[0])
    words.add_argument("--program", default="crates/minerful/out/minerful")
    words.add_argument("--seed", type=int, default=1)
    words.add_argument("--count", type=int, default=2000, help="so many runs")
    words.add_argument("--seconds", type=int, default=20, help="so many processor seconds a run at most")
    words.add_argument("--megabytes", type=int, default=500, help="so much memory a run at most")
    return words.parse_args()


def main():
    given = options()
    program, chance = os.path.abspath(given.program), random.Random(given.seed)
    statuses, failed = Counter(), 0
    CERTIFICATES.extend(result_of(program, Run(["mine", "--out", "cert"], log), given.seconds).out for log in CERTIFIED)
    for number in range(1, given.count + 1):
        run = chance.choice(MAKERS)(chance)
        result = result_of(program, run, given.seconds)
        statuses[result.status] += 1
        faults = list(faults_of(run, result, given.megabytes))
        failed += bool(faults)
        if faults:
            show(number, run, result, faults)
    print("Statuses:", ", ".join(f"{status}: {count}" for status, count in sorted(statuses.items())))
    print(f"{given.count - failed} passed, {failed} failed")
    return int(bool(failed))


if __name__ == "__main__":
    sys.exit(main())
