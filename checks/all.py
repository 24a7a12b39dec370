"""Runs the other checks on the built program, side by side, and counts what they count.

    python3 checks/all.py [--program PATH] [--jobs N] [--patience SECONDS]

As each check ends its row is printed: how many cases it tried, how many of them passed and failed, and the seconds that
it took. Above the row of a check that fails stands all that it printed. Each counts its own kind of case, see CHECKS. A
check that fails and counts no failure counts as one.

There is one worker for each processor. All is done within ten minutes: a check that isn't done when the patience is
over, which begins with the first check, is ended and counts as failed. Where a tool isn't there (jq, a C compiler),
the checks that need it are left out; that is no failure. Large inputs are left out too: `by_definition.py` alone tries
them.

Ends with 'N passed, M failed' alone on the last line, and with 1 where some failed, and with 2 where there is no
program. It needs Linux.
"""

import argparse
import contextlib
import os
import re
import shutil
import signal
import subprocess
import sys
import tempfile
import time
from dataclasses import dataclass

HERE = os.path.dirname(os.path.abspath(__file__))
ROOT = os.path.dirname(HERE)
PROGRAM = os.path.join(ROOT, "crates", "minerful", "out", "minerful")

# Seconds for all checks together: ten minutes, less what starting and ending them takes.
PATIENCE = 570

PASSED_FAILED = r"^(?P<passed>\d+) passed, (?P<failed>\d+) failed$"


@dataclass
class Check:
    """A script and its words, what it counts, where it says so, the tools it needs, and whether it runs the program."""

    words: list
    counts: str
    says: str = PASSED_FAILED
    needs: tuple = ()
    runs_program: bool = True


# Those of a few seconds first, and then the longest, so that none of these is left to run alone at the end.
CHECKS = [
    Check(["documents.py"], "refusals in the documents", r"^(?P<passed>\d+) refusals, and all clauses", runs_program=False),
    Check(["reading_list.py"], "files to read", r" in (?P<passed>\d+) files$", runs_program=False),
    Check(["faults.py"], "runs with an input or output that fails"),
    Check(
        ["tutorial.py"],
        "blocks of commands",
        r"^(?P<tried>\d+) blocks were run, .*; (?P<failed>\d+) differ$",
        ("bash", "jq", "iconv"),
    ),
    Check(["by_definition.py", "--no-limits"], "runs that are as defined", needs=("prlimit",)),
    Check(["expressions.py"], "words looked up in the templates' expressions"),
    Check(["certificates.py"], "certificates verified, as made and changed"),
    Check(["allocations.py"], "runs with too little memory", needs=(os.environ.get("CC", "cc"),)),
    Check(["fuzz.py"], "runs on random bytes, changed inputs and random words"),
    Check(["piped.py"], "lines of a pipe answered one by one"),
]


def missing_tools(check):
    return [tool for tool in check.needs if not shutil.which(tool)]


def counted(check, printed, status):
    """How many passed, and how many failed."""
    found = re.search(check.says, printed, re.MULTILINE)
    said = {name: int(number) for name, number in found.groupdict().items()} if found else {}
    failed = said.get("failed", 0)
    passed = said["tried"] - failed if "tried" in said else said.get("passed", 0)
    return passed, failed or int(status != 0 or not found)


class Running:
    """A check that was started. What it starts itself is of its process group, so that all of it can be ended."""

    def __init__(self, check, program):
        script, *words = check.words
        words += ["--program", program] if check.runs_program else []
        self.check, self.began, self.output = check, time.monotonic(), tempfile.TemporaryFile()
        streams = {"stdin": subprocess.DEVNULL, "stdout": self.output, "stderr": subprocess.STDOUT}
        command = [sys.executable, "-u", os.path.join(HERE, script), *words]
        self.child = subprocess.Popen(command, cwd=ROOT, start_new_session=True, **streams)

    def is_done(self):
        return self.child.poll() is not None

    def end(self):
        with contextlib.suppress(ProcessLookupError):
            os.killpg(self.child.pid, signal.SIGKILL)
        self.child.wait()

    def result(self):
        """How many passed and failed, with its row printed. One that isn't done is ended."""
        is_late = not self.is_done()
        if is_late:
            self.end()
        with self.output:
            self.output.seek(0)
            printed = self.output.read().decode(errors="replace")
        passed, failed = counted(self.check, printed, self.child.returncode)
        if failed:
            print(f"{self.name()} printed:\n{printed}", end="" if printed.endswith("\n") else "\n")
        late = "; it wasn't done in time, and was ended" if is_late else ""
        print_row(passed + failed, passed, failed, f"{time.monotonic() - self.began:.1f}", f"{self.name()}{late}")
        return passed, failed

    def name(self):
        return f"{' '.join(self.check.words)}: {self.check.counts}"


def print_row(*columns):
    print("{:>8} {:>8} {:>8} {:>8}  {}".format(*columns), flush=True)


def results(checks, program, jobs, until):
    """What each check comes to, as it ends."""
    waiting, running = list(checks), []
    try:
        while waiting or running:
            free = jobs - len(running)
            running += [Running(check, program) for check in waiting[:free]]
            waiting = waiting[free:]
            time.sleep(0.05)
            is_over = time.monotonic() > until
            done = [each for each in running if is_over or each.is_done()]
            running = [each for each in running if each not in done]
            yield from (each.result() for each in done)
    finally:
        for each in running:
            each.end()


def options():
    words = argparse.ArgumentParser(description=__doc__.splitlines()[0])
    words.add_argument("--program", default=PROGRAM)
    words.add_argument("--jobs", type=int, default=os.cpu_count() or 1, help="so many checks side by side")
    words.add_argument("--patience", type=float, default=PATIENCE, help="so many seconds for all checks together")
    return words.parse_args()


def main():
    given = options()
    program, began = os.path.abspath(given.program), time.monotonic()
    if not os.access(program, os.X_OK):
        print(f"There is no program {program}. Build it: cd crates/minerful && rt run -- kb /dev/null", file=sys.stderr)
        return 2
    print_row("cases", "passed", "failed", "seconds", "check")
    left_out = [check for check in CHECKS if missing_tools(check)]
    for check in left_out:
        print_row("-", "-", "-", "-", f"{check.words[0]}, left out: no {', '.join(missing_tools(check))}")
    checks = [check for check in CHECKS if check not in left_out]
    counts = list(results(checks, program, max(1, given.jobs), began + given.patience))
    passed, failed = (sum(part) for part in zip((0, 0), *counts, strict=True))
    print(f"{len(checks)} checks in {time.monotonic() - began:.0f} seconds, {len(left_out)} left out")
    print(f"{passed} passed, {failed} failed")
    return int(bool(failed))


if __name__ == "__main__":
    sys.exit(main())
