#!/usr/bin/env python3
"""Certificates of the built program: made, verified, and changed one number and one part at a time.

    python3 checks/certificates.py [--program PROGRAM] [--logs N] [--seed N]

Each certificate that `mine --out cert` prints is verified by the program and by the second checker of `defined/`, which
knows docs/DEFINITIONS.md alone; its report has to be that of `mine`. Then every single number of a small one is changed
by one, each member of its form is left out or replaced, and both have to say the same of all of them: the same refusal, or
the same check and item. Where both still say yes of a changed one, the sentence that a yes stands for is tried on all
short traces.

Ends at the first that isn't so, which it prints, or behind the last one: with 'N passed, M failed' alone on a line, and
with 1 where one failed.
"""

import argparse
import copy
import json
import os
import random
import subprocess
import sys
import tempfile
from collections import Counter

from cases import as_lines, random_log
from defined.certificates import certificate_of
from defined.comparison import keeps_all
from defined.outcome import Definitions, Input
from defined.reduction import short_traces

REPLACEMENTS = [None, 0, "a", [], {}, [[]], [0], ["a"], -1, 1.5, 2**32, True]


def run(program, words, text=b""):
    done = subprocess.run([program, *words], input=text, capture_output=True, check=False)
    return done.returncode, done.stdout, done.stderr


def verified(program, folder, data):
    path = os.path.join(folder, "certificate.json")
    with open(path, "wb") as file:
        file.write(data)
    return run(program, ["verify", path])


def by_definition(data):
    outcome = Definitions(0).outcome(["verify", "certificate"], lambda name: Input(data))
    return outcome.status, outcome.out, outcome.err


def sentence_holds(data, most):
    """The model keeps the traces of the conflict-free one, some trace keeps it, and each witness breaks its own alone."""
    claim = certificate_of(data)[0]
    free = claim.model + [constraint for constraint, conflicts in claim.dropped if not conflicts]
    conflicting = [constraint for constraint, conflicts in claim.dropped if conflicts]
    for trace in short_traces(len(claim.tasks), most)[0]:
        kept = keeps_all(claim.model, trace)
        if kept != keeps_all(free, trace) or (kept and any(keeps_all([c], trace) for c in conflicting)):
            return False
    return keeps_all(claim.model, claim.example)


# A certificate with one place changed. A place is the way to it: the names and numbers of what it stands in.


def places(value, way=()):
    yield way, value
    inside = value.items() if isinstance(value, dict) else enumerate(value) if isinstance(value, list) else []
    for name, part in inside:
        yield from places(part, (*way, name))


def with_part(value, way, part):
    if not way:
        return part
    changed = copy.copy(value)
    changed[way[0]] = with_part(value[way[0]], way[1:], part)
    return changed


def without_part(value, way):
    changed = copy.deepcopy(value)
    inside = changed
    for name in way[:-1]:
        inside = inside[name]
    del inside[way[-1]]
    return changed


def numbers_by_one(value):
    for way, part in places(value):
        if isinstance(part, int) and not isinstance(part, bool) and way[0] != "report":
            yield from (with_part(value, way, part + more) for more in [1, -1])


def parts_broken(value):
    for way, part in places(value):
        if way:
            yield without_part(value, way)
            yield from (with_part(value, way, other) for other in REPLACEMENTS if other != part)


def names_changed(value):
    """Other templates, activities, causes and traces."""
    for way, part in places(value):
        if isinstance(part, str):
            others = ["a", "b", "Init", "End", "AtMostOne", "Response", "NotCoExistence", "conflict", "weaker"]
            yield from (with_part(value, way, other) for other in others if other != part)


def certificate(program, log, words):
    status, text, err = run(program, ["mine", "--out", "cert", *words], as_lines(log))
    assert (status, err) == (0, b""), (status, err)
    status, report, _ = run(program, ["mine", *words], as_lines(log))
    value = json.loads(text)
    assert status == 0 and value["report"] == json.loads(report)
    assert text == (json.dumps(value, ensure_ascii=False, sort_keys=True, separators=(",", ":")) + "\n").encode()
    return value


def fail(tried, why):
    print(why)
    print(f"{sum(tried.values())} passed, 1 failed")
    sys.exit(1)


def compared(program, folder, tried, what, value, most):
    data = json.dumps(value, ensure_ascii=False).encode()
    found, wanted = verified(program, folder, data), by_definition(data)
    if found != wanted:
        fail(tried, f"differs, {what}: {found} and by definition {wanted}\n{data.decode()}")
    if found[0] == 0 and not sentence_holds(data, most):
        fail(tried, f"yes, and its sentence doesn't hold, {what}\n{data.decode()}")
    tried[what, found[1].decode().split(",")[0].strip() or found[2].decode().strip()] += 1


def main():
    words = argparse.ArgumentParser(description=__doc__.splitlines()[0])
    words.add_argument("--program", default="crates/minerful/out/minerful")
    words.add_argument("--logs", type=int, default=20, help="so many random logs for each repertoire")
    words.add_argument("--seed", type=int, default=1)
    words.add_argument("--traces", type=int, default=300, help="at most so many traces are tried for the sentence")
    given = words.parse_args()
    program, chance, tried = os.path.abspath(given.program), random.Random(given.seed), Counter()
    with tempfile.TemporaryDirectory() as folder:
        for number in range(given.logs):
            log = random_log(chance, "abc")
            for repertoire in "12":
                value = certificate(program, log, ["--repertoire", repertoire, "--interest=0", "--support=0.8"])
                compared(program, folder, tried, "as made", value, given.traces)
                for changed in names_changed(value) if number < 2 else []:
                    compared(program, folder, tried, "with a text changed", changed, given.traces)
        for log in [["a"], ["ab", "ab"]]:
            value = certificate(program, log, [])
            for what, changes in [("with a number changed by one", numbers_by_one), ("with a part broken", parts_broken)]:
                for changed in changes(value):
                    compared(program, folder, tried, what, changed, given.traces)
    for (what, found), count in sorted(tried.items()):
        print(f"{count:>8}  {what}: {found}")
    print(f"{sum(tried.values())} passed, 0 failed")
    return 0


if __name__ == "__main__":
    sys.exit(main())
