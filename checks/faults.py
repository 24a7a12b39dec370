"""Makes reads and writes of the built program fail, and looks at what it ends with.

    python3 checks/faults.py [--program PATH]

Each command is run with an input that can't be opened or read, and with outputs that can't be written: a closed pipe,
a full disk, a closed output. For each run the exit status, standard output and standard error are compared with what is
promised: a read fault is status 6 with its line and nothing on the output, a write fault status 7 with its line, and
where standard error can't be written the status is the same and the line is missing. A run with an input that doesn't
matter to it ends as it does without the fault.

Ends with 'N passed, M failed' alone on a line, and with 1 where some failed. It needs Linux, for /dev/full. A file
without the right to read is left out where the user may read every file. It takes some seconds.
"""

import argparse
import os
import subprocess
import sys
import tempfile
from dataclasses import dataclass, field

READ_FAULT = 6, b"minerful: read fault\n"
WRITE_FAULT = 7, b"minerful: write fault\n"
USAGE = 2, b"minerful: usage, place 0\n"
DONE = 0, b""
DIFFERS = 1, b""

LOG = b"ab\nab\na\n"
RECORDS = b"case,activity\n1,a\n1,b\n2,a\n"
MODEL = b'{"constraints":[{"template":"Response","parameters":[["a"],["b"]]}]}'

# Each ends with status 0, but for `check`, whose log breaks the model.
COMMANDS = [
    ["mine", "log"], ["mine", "--out", "table", "log"], ["mine", "--stage", "scores", "log"], ["kb", "log"],
    ["check", "model", "log"], ["mine", "--format", "csv", "records"], ["kb", "--format", "csv", "records"],
    ["check", "--format=csv", "model", "records"], ["gen"], ["sample"],
]


@dataclass
class Run:
    """What fails, the words, and what has to come: the status, the line on standard error, and whether the output is empty."""

    fails: str
    words: list
    wanted: tuple
    # What stands in place of the three streams: a path to open, or None for a closed one.
    streams: dict = field(default_factory=dict)
    has_output: bool = False


def done(words):
    return DIFFERS if words[0] == "check" else DONE


def with_inputs(words, **names):
    return [names.get(word, word) for word in words]


# The runs.


def inputs_that_fail():
    """In place of the log, or of the model, stands what can't be read."""
    for place in ["log", "records", "model"]:
        for words in [words for words in COMMANDS if place in words]:
            for bad in ["nowhere", "folder", "log/deeper", "unreadable", "", "x" * 5000]:
                yield Run(f"{place}: {bad[:20] or 'the empty name'}", with_inputs(words, **{place: bad}), READ_FAULT)
            # Standard input, closed or a folder.
            on_input = with_inputs(words, **{place: "-"})
            yield Run(f"{place} on a closed standard input", on_input, READ_FAULT, {"stdin": None})
            yield Run(f"{place} on a standard input that is a folder", on_input, READ_FAULT, {"stdin": "folder"})


def inputs_that_do_not_matter():
    """Standard input is closed, or a folder, and isn't asked for."""
    for words in COMMANDS:
        for stdin in [None, "folder"]:
            yield Run("a standard input that isn't asked for", words, done(words), {"stdin": stdin}, has_output=True)


OUTPUTS = {"a closed output": None, "a full disk": "/dev/full", "a closed pipe": "pipe"}


def outputs_that_fail():
    for fails, stdout in OUTPUTS.items():
        for words in COMMANDS:
            yield Run(f"standard output is {fails}", words, WRITE_FAULT, {"stdout": stdout})


def errors_that_fail():
    """Where standard error can't be written, the status stays and the line is missing."""
    for fails, stderr in OUTPUTS.items():
        for words, (status, _) in [(["mine", "nowhere"], READ_FAULT), ([], USAGE), (["check", "nowhere", "log"], READ_FAULT)]:
            yield Run(f"standard error is {fails}", words, (status, None), {"stderr": stderr})
        for words in COMMANDS:
            yield Run(f"standard error is {fails}, and isn't asked for", words, done(words), {"stderr": stderr}, has_output=True)
            yield Run(f"both outputs are {fails}", words, (WRITE_FAULT[0], None), {"stdout": stderr, "stderr": stderr})


def all_runs():
    for make in [inputs_that_fail, inputs_that_do_not_matter, outputs_that_fail, errors_that_fail]:
        yield from make()


# How a run is made.


def write_files(folder):
    for name, data in {"log": LOG, "records": RECORDS, "model": MODEL, "unreadable": LOG}.items():
        with open(os.path.join(folder, name), "wb") as file:
            file.write(data)
    os.chmod(os.path.join(folder, "unreadable"), 0)
    os.mkdir(os.path.join(folder, "folder"))


def opened(path, number, folder):
    """A descriptor for the stream of this number."""
    if path == "pipe":
        reader, writer = os.pipe()
        os.close(reader)
        return writer
    return os.open(os.path.join(folder, path), os.O_RDONLY if number == 0 else os.O_WRONLY)


NUMBERS = {"stdin": 0, "stdout": 1, "stderr": 2}

# As long as a run may take, in seconds. Each takes a moment; a busy machine shall fail none.
PATIENCE = 300


def result_of(program, run, folder):
    """The status, standard output and standard error. An output that fails counts as empty."""
    given = {"stdin": subprocess.DEVNULL, "stdout": subprocess.PIPE, "stderr": subprocess.PIPE}
    closed = [NUMBERS[name] for name, path in run.streams.items() if path is None]
    streams = {name: opened(path, NUMBERS[name], folder) for name, path in run.streams.items() if path is not None}

    def close():
        for number in closed:
            os.close(number)

    made = subprocess.Popen([program, *run.words], cwd=folder, preexec_fn=close, **(given | streams))
    try:
        out, err = made.communicate(timeout=PATIENCE)
    except subprocess.TimeoutExpired:
        made.kill()
        out, err = made.communicate()
    for stream in streams.values():
        os.close(stream)
    return made.returncode, out or b"", err or b""


def fault_of(run, result):
    """What differs, or nothing."""
    status, out, err = result
    wanted_status, wanted_line = run.wanted
    found = []
    if status != wanted_status:
        found.append(f"status {status} and not {wanted_status}")
    if "stderr" not in run.streams and err != wanted_line:
        found.append(f"standard error has {err!r} and not {wanted_line!r}")
    if "stdout" not in run.streams and bool(out) != run.has_output:
        found.append(f"standard output has {out[:80]!r}")
    return "; ".join(found)


def is_readable(folder):
    return os.access(os.path.join(folder, "unreadable"), os.R_OK)


def main():
    words = argparse.ArgumentParser(description=__doc__.splitlines()[0])
    words.add_argument("--program", default="crates/minerful/out/minerful")
    program = os.path.abspath(words.parse_args().program)
    passed, failed = 0, 0
    with tempfile.TemporaryDirectory() as folder:
        write_files(folder)
        left_out = is_readable(folder)
        for run in all_runs():
            if left_out and "unreadable" in run.words:
                continue
            fault = fault_of(run, result_of(program, run, folder))
            passed, failed = passed + (not fault), failed + bool(fault)
            if fault:
                print(f"{run.fails}: {' '.join(run.words)[:200]}: {fault}")
    if left_out:
        print("Left out: a file without the right to read, since this user may read it")
    print(f"{passed} passed, {failed} failed")
    return int(bool(failed))


if __name__ == "__main__":
    sys.exit(main())
