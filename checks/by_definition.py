"""Compares what the built program does with the definitions, computed the long way.

    python3 checks/by_definition.py [--program PATH] [--logs N] [--seed N] [--no-limits] [--traces N]

For each run the definitions give its exit status, its standard output and its standard error, and each of the three
is compared by itself. The definitions stand in checks/defined, once more and in Python: by places of traces, by counts
over whole logs, and by trying all short traces. Nothing is taken from the program's code. The runs stand in
checks/cases.py and checks/model_cases.py. At the end it says how many runs tried what, how often each refusal came,
and what was not tried.

Ends at the first run that is not as defined, which it prints, or behind the last one: with 'N passed, M failed' alone on
a line, and with 1 where one failed. It needs Linux, for inputs that are cut or fail, and prlimit, for outputs that fail.
"""

import argparse
import contextlib
import json
import os
import random
import socket
import subprocess
import sys
import tempfile
import threading
from collections import Counter

import cases
import further_cases
import model_cases
from defined.certificates import certificate_of, verdict
from defined.outcome import Definitions, Input, Outcome
from defined.refusals import STATUSES, Refused

NOT_TRIED = """Not tried: out of memory (status 8); files that fail behind their first byte; numbers of activities, traces
and events between the small ones and the limits; many activities where constraints are dropped; checks of large logs."""

NO_TEXT = "words that are no text"


# What is wanted


def reader(case):
    """Reads an input as the case has it: a name that isn't a file of the case can't be read."""
    files = {name.removeprefix("./"): data for name, data in case.files.items()}

    def read(name):
        if name == "-":
            return Input(case.stdin, case.fails)
        data = files.get(name.removeprefix("./"))
        return None if data is None else Input(data)

    return read


def is_text(word):
    return isinstance(word, str) or word.decode("utf-8", "ignore").encode() == word


def wanted(definitions, case):
    if not all(map(is_text, case.words)):
        return Outcome(9, b"", b"", NO_TEXT)
    outcome = definitions.outcome([os.fsdecode(word) for word in case.words], reader(case))
    if case.short == "out" and len(outcome.out) > case.room:
        fault = Refused("WriteFault")
        return Outcome(fault.status, outcome.out, fault.line, fault.told)
    return outcome


# What the program does


def write_files(folder, files):
    for name, data in files.items():
        path = os.path.join(folder, name)
        if data is None:
            os.mkdir(path)
        else:
            with open(path, "wb") as file:
                file.write(data)


def send_in_pieces(end, data, size):
    """Each message is a read. The program may leave before the last."""
    with end, contextlib.suppress(OSError):
        for at in range(0, len(data), size):
            end.send(data[at : at + size])


def cut_input(case):
    """A standard input that gives so many bytes a read at most."""
    ours, theirs = socket.socketpair(socket.AF_UNIX, socket.SOCK_SEQPACKET)
    threading.Thread(target=send_in_pieces, args=(ours, case.stdin, case.per_read), daemon=True).start()
    return theirs


def failing_input(case):
    """A standard input that is reset behind its bytes: its other end is closed while something for it is unread."""
    ours, theirs = socket.socketpair()
    theirs.send(b"unread")
    ours.sendall(case.stdin)
    ours.close()
    return theirs


def input_of(case, folder):
    if case.fails:
        return failing_input(case)
    if case.per_read:
        return cut_input(case)
    path = os.path.join(folder, "standard input")
    write_files(folder, {"standard input": case.stdin})
    return open(path, "rb")


def run(program, case):
    """Its status, and what stands on both outputs. An output with little room is a file of limited length."""
    with tempfile.TemporaryDirectory() as folder, tempfile.TemporaryDirectory() as beside:
        write_files(folder, case.files)
        paths = {name: os.path.join(beside, name) for name in ["out", "err"]}
        with input_of(case, beside) as stdin, open(paths["out"], "wb") as out, open(paths["err"], "wb") as err:
            limit = [] if not case.short else ["prlimit", f"--fsize={case.room}", "--"]
            ends = {"out": out, "err": err}
            pipe = {"out": "err", "err": "out"}.get(case.short)
            ends |= {pipe: subprocess.PIPE} if pipe else {}
            done = subprocess.run(
                [*limit, program, *case.words],
                stdin=stdin,
                stdout=ends["out"],
                stderr=ends["err"],
                cwd=folder,
                # A write beyond the length fails, and doesn't end the program.
                restore_signals=not case.short,
                check=False,
            )
        piped = {"out": done.stdout, "err": done.stderr}
        found = {name: read_file(path) if piped[name] is None else piped[name] for name, path in paths.items()}
    return {"status": done.returncode, **found}


def read_file(path):
    with open(path, "rb") as file:
        return file.read()


# The comparison


def is_certificate_of(found, report):
    """Whether this is a certificate of the report, on which the second checker says yes."""
    try:
        return json.loads(found)["report"] == json.loads(report) and verdict(certificate_of(found)) is None
    except (ValueError, KeyError, Refused):
        return False


def is_as_wanted(part, found, outcome, case):
    """The same; of an output that fails, a prefix; of a certificate, one that is right."""
    whole = getattr(outcome, part)
    if part == "out" and outcome.certifies:
        return is_certificate_of(found, whole)
    if part == case.short and len(whole) > case.room:
        return whole.startswith(found)
    return found == whole


def differences(found, outcome, case):
    """Which of the three parts differ."""
    return [part for part in ["status", "out", "err"] if not is_as_wanted(part, found[part], outcome, case)]


def shown(value):
    text = value.decode("utf-8", "backslashreplace") if isinstance(value, bytes) else str(value)
    return text if len(text) < 4000 else f"{text[:4000]}... ({len(text)} characters)"


def show(case, found, outcome, parts):
    print(f"differs in {', '.join(parts)}: {case.tries}: {case.words}")
    print(f"standard input: {case.stdin[:400]!r}, a read: {case.per_read or 'all'}, fails: {case.fails}")
    print(f"files: {sorted(case.files)}, room: {f'{case.short} {case.room}' if case.short else 'all'}")
    for part in parts:
        print(f"--- {part} printed:\n{shown(found[part])}\n--- {part} wanted:\n{shown(getattr(outcome, part))}")


def all_cases(given):
    chance = random.Random(given.seed)
    for module in [cases, model_cases, further_cases]:
        yield from module.by_hand()
        for number in range(given.logs):
            yield from module.at_random(chance, number)
        if given.limits:
            yield from module.limits(chance)


def print_counts(title, counts):
    print(title)
    for name, count in counts.items():
        print(f"{count:>8}  {name}")


def refusal_names():
    states = [f"States, phase {phase}" for phase in range(1, 8)]
    return [name for name in STATUSES if name != "States"] + states + [NO_TEXT]


def summary(definitions, tried, refused):
    print_counts("Runs that were as defined:", tried)
    print_counts("Refusals among them:", {name: refused[name] for name in refusal_names()})
    found, none, undecided = (sum(getattr(s, part) for s in definitions.counted) for part in ["found", "none", "undecided"])
    print("Searches for the least trace that keeps a list, and breaks one constraint where one is given:")
    print(f"{found:>8}  found by trying all traces up to a length, and by an automaton the same")
    print(f"{none - undecided:>8}  where both find none, and traces of that length reach all that can be reached")
    print(f"{undecided:>8}  decided by the automaton alone, since longer traces would have to be tried")
    print(NOT_TRIED)
    print(f"{sum(tried.values())} passed, 0 failed")


def options():
    words = argparse.ArgumentParser(description=__doc__.splitlines()[0])
    words.add_argument("--program", default="crates/minerful/out/minerful")
    words.add_argument("--logs", type=int, default=100, help="so many rounds of random cases")
    words.add_argument("--seed", type=int, default=1)
    words.add_argument("--no-limits", dest="limits", action="store_false", help="leave out the large inputs")
    words.add_argument("--traces", type=int, default=10_000, help="at most so many traces are tried for one search")
    return words.parse_args()


def main():
    given = options()
    definitions = Definitions(given.traces)
    program = os.path.abspath(given.program)
    tried, refused = Counter(), Counter()
    for case in all_cases(given):
        outcome = wanted(definitions, case)
        found = run(program, case)
        parts = differences(found, outcome, case)
        if parts:
            show(case, found, outcome, parts)
            print(f"{sum(tried.values())} passed, 1 failed")
            return 1
        tried[case.tries] += 1
        refused[outcome.refusal] += 1
    summary(definitions, tried, refused)
    return 0


if __name__ == "__main__":
    sys.exit(main())
