#!/usr/bin/env python3
"""Whether `monitor` answers each line of a pipe before the next one comes, and how many cases it takes.

    python3 checks/piped.py [--program PROGRAM]

Hands it one line at a time and waits for the answer before the next. Some lines come in two pieces. Then a line without a tab
ends the run, and what was answered before stands. Then as many cases as a run may have, and one more. Ends with
'N passed, M failed' alone on a line, and with 1 where some failed. A line that isn't answered is waited for two minutes,
so that a busy machine fails nothing, and those behind it aren't tried.
"""

import argparse
import json
import os
import select
import subprocess
import sys
import tempfile

MODEL = {
    "constraints": [
        {"template": "Response", "parameters": [["order"], ["ship"]]},
        {"template": "AtMostOne", "parameters": [["order"]]},
    ]
}

# Lines, and what each is answered by.
ANSWERED = [
    ("17\torder\n", '1 "17" b bk\n'),
    ("18\tcall\n", '2 "18" k kk\n'),
    ("17\tship\r\n", '3 "17" k kk\n'),
    ("18\torder\n", '4 "18" b bk\n'),
    ("17\torder\n", '5 "17" B bB\n'),
    ("\tship\n", '6 "" k kk\n'),
    ("a b\tship\torder\n", '7 "a b" k kk\n'),
]

# As long as an answer may take, in seconds.
PATIENCE = 120

MOST_CASES = 1_048_575


def answer(output):
    """The line that stands on the pipe, or None where none comes."""
    ready, _, _ = select.select([output], [], [], PATIENCE)
    return output.readline().decode() if ready else None


def one_by_one(program, model):
    """Whether each line is answered before the next is written."""
    pipes = {"stdin": subprocess.PIPE, "stdout": subprocess.PIPE, "stderr": subprocess.PIPE}
    running = subprocess.Popen([program, "monitor", model], bufsize=0, **pipes)
    for number, (line, wanted) in enumerate(ANSWERED):
        data = line.encode()
        cut = number % len(data)
        for piece in [data[:cut], data[cut:]]:
            running.stdin.write(piece)
        found = answer(running.stdout)
        yield f"line {number + 1}", found, wanted
        if found is None:
            running.kill()
            return
    out, err = running.communicate(b"18 ship\n")
    yield "what a line without a tab leaves", (running.returncode, out, err), (3, b"", b"minerful: line 8 has no tab\n")


def many_cases(program, model):
    """As many cases as may be, and one more."""
    log = "".join(f"{case}\torder\n" for case in range(MOST_CASES + 1)).encode()
    done = subprocess.run([program, "monitor", model], input=log, capture_output=True, check=False)
    wanted = 5, MOST_CASES, f"minerful: more than {MOST_CASES} traces\n".encode()
    yield "as many cases as may be, and one more", (done.returncode, done.stdout.count(b"\n"), done.stderr), wanted


def main():
    options = argparse.ArgumentParser(description=__doc__.splitlines()[0])
    options.add_argument("--program", default="crates/minerful/out/minerful")
    program, counts = os.path.abspath(options.parse_args().program), [0, 0]
    with tempfile.TemporaryDirectory() as folder:
        model = os.path.join(folder, "model.json")
        with open(model, "w", encoding="utf-8") as file:
            json.dump(MODEL, file)
        for tried in [one_by_one, many_cases]:
            for what, found, wanted in tried(program, model):
                counts[found != wanted] += 1
                if found != wanted:
                    print(f"{what}: {found!r}, and not {wanted!r}")
    print(f"{counts[0]} passed, {counts[1]} failed")
    return int(counts[1] > 0)


if __name__ == "__main__":
    sys.exit(main())
