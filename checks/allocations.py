"""Refuses the built program each of its allocations in turn, and looks at what it ends with.

    python3 checks/allocations.py [--program PATH]

Each run is made once with all memory that it asks for, and then with its first allocation refused, with its second,
and so on, until a run asks for fewer: with that one alone refused, and with all behind it too. Between the program and
the C library's `malloc` and `realloc` stands a small library, which is compiled here: it counts the calls, gives
nothing at those that are named, and tells that it did. So what is tried is the program as it was built.

A run that was refused an allocation ends with the status that it has with all memory, or with 8. With its own status
it prints what it prints with all memory. Else standard output holds nothing, and standard error the line that says out
of memory. That line is missing only where the words or their list found no memory: never once an earlier allocation
that was refused brought the line.

Says of each run how many allocations were refused and with what it ended. One that was refused none counts as failed.
Ends with 'N passed, M failed' alone on a line, and with 1 where some failed. It needs Linux with glibc, and a C
compiler as $CC or `cc`. It takes half a minute.
"""

import argparse
import os
import subprocess
import sys
import tempfile
from collections import Counter
from dataclasses import dataclass
from itertools import count

NO_MEMORY = 8
OUT_OF_MEMORY = b"minerful: out of memory\n"

# No run asks for so many allocations.
LAST = 2**62

# As long as a run may take, in seconds. Each takes a moment; a busy machine shall fail none.
PATIENCE = 300

LIBRARY = r"""
#include <errno.h>
#include <stdlib.h>
#include <unistd.h>

extern void *__libc_malloc(size_t);
extern void *__libc_realloc(void *, size_t);

static long calls;

static int refused(void) {
    const char *first = getenv("FIRST"), *last = getenv("LAST"), *told = getenv("TELL");
    if (!first || !last || !told || ++calls < atol(first) || calls > atol(last)) return 0;
    if (calls == atol(first) && write(atoi(told), "r", 1) != 1) abort();
    errno = ENOMEM;
    return 1;
}

void *malloc(size_t size) { return refused() ? 0 : __libc_malloc(size); }

void *realloc(void *old, size_t size) { return refused() ? 0 : __libc_realloc(old, size); }
"""

RECORDS = b"""\xef\xbb\xbfcase,activity,time
1,"Register, new",2024-01-01T09:00:00
2,"Register, new",2024-01-01T09:05:00
1,Check,2024-01-01T10:00:00
1,Pay,2024-01-01T11:00:00
2,Check,2024-01-01T12:00:00
2,Pay,2024-01-01T13:00:00
"""
MODEL = b'{"constraints":[{"template":"Response","parameters":[["a"],["b"]]},{"template":"Init","parameters":[["a"]]}]}'

FILES = {"twice": b"ab\nab\n", "once": b"ab\n", "breaks": b"ab\na\n", "records": RECORDS, "model": MODEL}

# Each ends with status 0, but for `check`, whose log breaks the model.
RUNS = [
    ["mine", "twice"],
    ["mine", "--format", "csv", "records"],
    ["check", "model", "breaks"],
    ["kb", "once"],
    ["gen", "--traces", "2", "--length", "3", "--letters", "3"],
]


@dataclass
class Result:
    status: int
    out: bytes
    err: bytes
    refused: bool


class Program:
    """The program, in a folder with the inputs and the library that refuses."""

    def __init__(self, path, folder):
        self.path, self.folder = path, folder
        for name, data in FILES.items():
            with open(os.path.join(folder, name), "wb") as file:
                file.write(data)
        self.library = os.path.join(folder, "refuses.so")
        words = [os.environ.get("CC", "cc"), "-O1", "-shared", "-fPIC", "-o", self.library, "-x", "c", "-"]
        subprocess.run(words, input=LIBRARY.encode(), check=True)

    def run(self, words, first, last):
        """What comes where the allocations of these numbers are refused, which count from 1."""
        reader, writer = os.pipe()
        env = {"LD_PRELOAD": self.library, "FIRST": str(first), "LAST": str(last), "TELL": str(writer)}
        streams = {"stdin": subprocess.DEVNULL, "stdout": subprocess.PIPE, "stderr": subprocess.PIPE}
        given = {"cwd": self.folder, "env": env, "pass_fds": [writer], "timeout": PATIENCE}
        try:
            done = subprocess.run([self.path, *words], check=False, **streams, **given)
        finally:
            os.close(writer)
            with os.fdopen(reader, "rb") as told:
                refused = told.read() == b"r"
        return Result(done.returncode, done.stdout, done.stderr, refused)


def fault_of(result, whole, needs_line):
    """What is not as promised where an allocation was refused, or nothing."""
    if result.status == whole.status:
        same = (result.out, result.err) == (whole.out, whole.err)
        return "" if same else f"the run's own status, with {result.out[:80]!r} and {result.err!r}"
    if result.status != NO_MEMORY:
        return f"status {result.status}"
    if result.out:
        return f"status {result.status}, and standard output has {result.out[:80]!r}"
    if needs_line and result.err != OUT_OF_MEMORY:
        return f"status {result.status}, late, and standard error has {result.err!r}"
    return "" if result.err in [b"", OUT_OF_MEMORY] else f"status {result.status}, and standard error has {result.err!r}"


def try_run(program, words, behind):
    """Refuses this run its allocations, each alone or with all behind it: how many passed, and how many failed."""
    whole = program.run(words, 0, 0)
    if (whole.status, whole.err, bool(whole.out)) != (int(words[0] == "check"), b"", True):
        print(f"{' '.join(words)}: with all memory status {whole.status}, and standard error has {whole.err!r}")
        return 0, 1
    kinds, failed, needs_line = Counter(), 0, False
    how = "refused with all behind it" if behind else "refused alone"
    for number in count(1):
        result = program.run(words, number, LAST if behind else number)
        if not result.refused:
            break
        fault = fault_of(result, whole, needs_line)
        if fault:
            print(f"{' '.join(words)}: allocation {number} {how}: {fault}")
        failed += bool(fault)
        needs_line = needs_line or result.err == OUT_OF_MEMORY
        kinds[f"status {result.status} with {'a' if result.err else 'no'} line"] += 1
    tried = sum(kinds.values())
    ended = ", ".join(f"{times} times {kind}" for kind, times in kinds.items())
    print(f"{' '.join(words)}: {tried} allocations, each {how}: {ended}")
    return tried - failed, failed + (not tried)


def main():
    words = argparse.ArgumentParser(description=__doc__.splitlines()[0])
    words.add_argument("--program", default="crates/minerful/out/minerful")
    path = os.path.abspath(words.parse_args().program)
    with tempfile.TemporaryDirectory() as folder:
        program = Program(path, folder)
        counts = [try_run(program, words, behind) for words in RUNS for behind in [False, True]]
    passed, failed = (sum(part) for part in zip(*counts, strict=True))
    print(f"{passed} passed, {failed} failed")
    return int(bool(failed))


if __name__ == "__main__":
    sys.exit(main())
