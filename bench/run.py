#!/usr/bin/env python3
"""Times built programs on logs made from seeds, side by side, and compares what they print.

    python3 bench/run.py [PROGRAM ...] [--ordinary] [--folder PATH] [--repeat N] [--only TABLE ...] [--write]

Without a PROGRAM it's the one that is built here. With --ordinary the plain program bench/ordinary.rs is compiled and
stands beside them as the last one, and each row says how many times its seconds the program before it takes. The logs are made in the folder (about 130 MB, in /tmp by default) and
used again by the next run. Each row has for each program the processor seconds of the child (user), the least of
the repeated runs, and its peak memory in MB. The first run of each isn't timed: its status, its output and
its line of refusal are compared with those of the first program. Where they differ the row says so, and the script ends
with 1. A row that a program refuses as words it doesn't know isn't compared: an older program lacks a stage.

It needs /usr/bin/time: the peak of a child is at least that of the process that starts it, and this one is small.
"""

import argparse
import datetime
import hashlib
import json
import os
import platform
import random
import subprocess
import sys
from dataclasses import dataclass

HERE = os.path.dirname(os.path.abspath(__file__))
BUILT = os.path.join(HERE, "..", "crates", "minerful", "out", "minerful")
ORDINARY = os.path.join(HERE, "ordinary.rs")
LETTERS = b"abcdefghijklmnopqrstuvwxyz"
LIMIT = "300"
USAGE = 2


# The logs

def letters(path, seed, events, shortest, longest, names=26, rest=b""):
    """So many events in the first letters, in traces of evenly spread lengths; then the rest."""
    source = random.Random(seed)
    table = bytes(LETTERS[value % names] for value in range(256))
    with open(path, "wb") as file:
        left = events
        while left:
            piece = min(left, 1_000_000)
            text = source.randbytes(piece).translate(table)
            place, lines = 0, []
            while place < piece:
                length = source.randint(shortest, longest)
                lines.append(text[place:place + length])
                place += length
            file.write(b"\n".join(lines) + b"\n")
            left -= piece
        file.write(rest)


def many_names(path, seed, names, traces, length):
    """Traces of one length over so many characters."""
    source = random.Random(seed)
    with open(path, "w", encoding="utf-8") as file:
        for _ in range(traces):
            file.write("".join(chr(0x4E00 + source.randrange(names)) for _ in range(length)) + "\n")


def one_line(path, seed, names, times):
    """One trace: the characters in their order, so many times over."""
    with open(path, "w", encoding="utf-8") as file:
        file.write("".join(chr(0x4E00 + name) for name in range(names)) * times + "\n")


def records(path, seed, events, cases):
    """A CSV log: the cases interleaved, some names quoted, a number to order by, a column without use."""
    source = random.Random(seed)
    names = [f"step {chr(97 + place)}" for place in range(20)] + [f'"Check, part {place}"' for place in range(6)]
    with open(path, "w", encoding="utf-8") as file:
        file.write("case,activity,n,by\n")
        for place in range(events):
            case = (place // 60) * 5 % cases + source.randrange(5) if cases < events else place
            file.write(f"c{case},{source.choice(names)},{place},clerk {source.randrange(9)}\n")


def process(path, seed, names, traces):
    """A process: a start, a loop of two steps, a choice of two, two parallel branches, an end.
    One trace in twenty has lost an event."""
    source = random.Random(seed)
    steps = [chr(97 + place) for place in range(names)]
    start, again, tried, one, other = steps[:5]
    branches, end = steps[5:-1], steps[-1]
    half = len(branches) // 2
    with open(path, "w", encoding="utf-8") as file:
        for _ in range(traces):
            trace = [start, again, tried]
            while source.random() < 0.25:
                trace += [again, tried]
            trace.append(one if source.random() < 0.6 else other)
            left, right = branches[:half], branches[half:]
            while left or right:
                trace.append((left if left and (not right or source.random() < 0.5) else right).pop(0))
            trace.append(end)
            if source.random() < 0.05:
                del trace[source.randrange(len(trace))]
            file.write("".join(trace) + "\n")


def rare(path, seed, names, others):
    """One process of so many steps in a row; in every second trace stands one step more that no other trace has."""
    source = random.Random(seed)
    steps = "".join(chr(97 + place) for place in range(names))
    with open(path, "w", encoding="utf-8") as file:
        for place in range(others):
            cut = source.randrange(1, names)
            file.write(steps + "\n" + steps[:cut] + chr(0x4E00 + place) + steps[cut:] + "\n")


def letters_in_order(path, seed, names, traces):
    """Traces of the same steps in a row."""
    with open(path, "w", encoding="utf-8") as file:
        file.write((LETTERS.decode()[:names] + "\n") * traces)


EXISTENCE = ["Init", "End", "Participation", "AtMostOne"]
PAIRS = [
    "ChainSuccession", "AlternateSuccession", "Succession", "CoExistence", "ChainResponse", "AlternateResponse",
    "Response", "ChainPrecedence", "AlternatePrecedence", "Precedence", "RespondedExistence", "NotCoExistence",
    "NotSuccession", "NotChainSuccession",
]


def rules(path, seed, count):
    """A model of so many different constraints over the letters, of all templates about as often."""
    source = random.Random(seed)
    found = {}
    while len(found) < count:
        template = source.choice(EXISTENCE + PAIRS)
        names = source.sample(LETTERS.decode(), 1 if template in EXISTENCE else 2)
        found[template, *names] = {"template": template, "parameters": [[name] for name in names]}
    with open(path, "w", encoding="utf-8") as file:
        json.dump({"constraints": list(found.values())}, file)


def process_rules(path, seed, names, count):
    """A model of so many constraints that each trace of a process keeps, where no event was lost."""
    steps = [chr(97 + place) for place in range(names)]
    start, again, tried, one, other = steps[:5]
    branches, end = steps[5:-1], steps[-1]
    half = len(branches) // 2
    found = [("Init", start), ("End", end), ("NotCoExistence", one, other), ("ChainSuccession", again, tried)]
    found += [("AtMostOne", step) for step in [start, one, other, *branches, end]]
    for step in steps[1:]:
        found += [("Precedence", start, step), ("NotSuccession", step, start), ("RespondedExistence", step, start)]
    for step in steps[:-1]:
        found += [("Response", step, end), ("NotSuccession", end, step), ("AlternatePrecedence", step, end)][: 2 + (step in branches)]
    for branch in [branches[:half], branches[half:]]:
        pairs = [(first, second) for place, first in enumerate(branch) for second in branch[place + 1 :]]
        found += [(name, *pair) for pair in pairs for name in ["Succession", "AlternateSuccession", "CoExistence"]]
    chosen = random.Random(seed).sample(found, count)
    items = [{"template": template, "parameters": [[name] for name in activities]} for template, *activities in chosen]
    with open(path, "w", encoding="utf-8") as file:
        json.dump({"constraints": items}, file)


def case_events(path, seed, names, events, cases):
    """Lines of a case, a tab and a letter: the cases interleaved."""
    source = random.Random(seed)
    with open(path, "w", encoding="utf-8") as file:
        for _ in range(events):
            file.write(f"case {source.randrange(cases)}\t{chr(97 + source.randrange(names))}\n")


# The files by their names: who makes each, its seed, and its numbers.
LOGS = {
    "1m-39.txt": (letters, 3, 1_000_000, 1, 39),
    "16m-39.txt": (letters, 4, 16_000_000, 1, 39),
    "1m-999.txt": (letters, 5, 1_000_000, 1, 999),
    "16m-999.txt": (letters, 6, 16_000_000, 1, 999),
    "read-16m-39.txt": (letters, 4, 16_000_000, 1, 39, 26, b"\xff\n"),
    "names-500.txt": (many_names, 5, 500, 2_000, 200),
    "names-300.txt": (many_names, 7, 300, 80_000, 12),
    "line-1000.txt": (one_line, 0, 1_000, 1),
    "line-1000-50.txt": (one_line, 0, 1_000, 50),
    "line-1000-349.txt": (one_line, 0, 1_000, 349),
    "letters-1.txt": (letters, 11, 4_000_000, 1, 39, 1),
    "letters-5.txt": (letters, 11, 4_000_000, 1, 39, 5),
    "letters-10.txt": (letters, 11, 4_000_000, 1, 39, 10),
    "records-1m.csv": (records, 7, 1_000_000, 83_330),
    "cases-1m.csv": (records, 12, 1_000_000, 1_000_000),
    "process-8.txt": (process, 8, 8, 2_000),
    "process-10.txt": (process, 9, 10, 2_000),
    "process-12.txt": (process, 10, 12, 2_000),
    "process-15.txt": (process, 11, 15, 2_000),
    "any-26.txt": (letters, 13, 3_250, 1, 12, 26),
    "rare-12-100.txt": (rare, 14, 12, 100),
    "rare-12-400.txt": (rare, 14, 12, 400),
    "of-20-1m.txt": (letters, 16, 1_000_000, 20, 20),
    "of-1000-1m.txt": (letters, 17, 1_000_000, 1_000, 1_000),
    "rules-561.json": (rules, 15, 561),
    "any-20.txt": (letters, 18, 100_000, 1, 39, 20),
    "rare-12-0.txt": (letters_in_order, 0, 12, 200),
    "line-15.txt": (one_line, 0, 15, 1),
    "line-16.txt": (one_line, 0, 16, 1),
    "line-26.txt": (one_line, 0, 26, 1),
    "first-60.json": (process_rules, 19, 12, 60),
    "second-60.json": (process_rules, 20, 12, 60),
    "rules-20.json": (process_rules, 21, 12, 20),
    "events-1m.txt": (case_events, 22, 12, 1_000_000, 50_000),
}


def make(folder):
    os.makedirs(folder, exist_ok=True)
    for name, (maker, seed, *rest) in LOGS.items():
        path = os.path.join(folder, name)
        if not os.path.exists(path):
            maker(path + ".part", seed, *rest)
            os.rename(path + ".part", path)


# The rows: a log, and the words of a command.

SCORES = ["mine", "--stage", "scores"]
CSV = ["--format", "csv"]
BY_NUMBER = ["--order-column", "n", "--order-as", "number"]


def thresholds(support, confidence, interest):
    return ["--support", support, "--confidence", confidence, "--interest", interest]


DEFAULTS = thresholds("0.95", "0.25", "0.125")
LOW = thresholds("0.5", "0", "0")
ALWAYS = thresholds("1", "0", "0")


def model_rows():
    for stage in ["consistent", "model"]:
        words = ["mine", "--stage", stage]
        for count in [8, 10, 12, 15]:
            for limits in [DEFAULTS, LOW]:
                yield f"process-{count}.txt", words + limits
        yield "any-26.txt", words + ALWAYS
        for name in ["rare-12-0.txt", "rare-12-100.txt", "rare-12-400.txt", "line-15.txt", "line-16.txt"]:
            yield name, words + DEFAULTS


SECOND = ["--repertoire", "2"]
KEEP = ["--on-limit", "keep"]

TABLES = {
    "strings": [(f"{log}.txt", words) for log in ["1m-39", "16m-39", "1m-999", "16m-999"] for words in [["kb"], SCORES]],
    "reading": [("read-16m-39.txt", ["kb"])],
    "activities": [
        *((f"letters-{count}.txt", ["kb"]) for count in [1, 5, 10]),
        *((f"names-{count}.txt", words) for count in [300, 500] for words in [["kb"], SCORES]),
        ("line-1000.txt", SCORES),
        ("line-1000-50.txt", SCORES),
        ("line-1000-349.txt", ["kb"]),
    ],
    "csv": [
        ("records-1m.csv", ["kb", *CSV]),
        ("records-1m.csv", [*SCORES, *CSV]),
        ("records-1m.csv", [*SCORES, *CSV, *BY_NUMBER]),
        ("cases-1m.csv", ["kb", *CSV]),
    ],
    "models": list(model_rows()),
    "second": [
        ("1m-39.txt", [*SCORES, *SECOND]),
        ("16m-39.txt", [*SCORES, *SECOND]),
        *((f"process-{count}.txt", ["mine", *SECOND]) for count in [8, 10, 12]),
    ],
    "keep": [
        *((f"line-{count}.txt", ["mine", *KEEP]) for count in [15, 16, 26]),
        *(("any-20.txt", ["mine", *KEEP, *limits]) for limits in [DEFAULTS, ALWAYS]),
    ],
    "certificates": [
        *((f"process-{count}.txt", ["mine", "--out", "cert", *more]) for count in [8, 10, 12] for more in [[], SECOND]),
    ],
    "by themselves": [
        ("second-60.json", ["compare", "first-60.json"]),
        ("first-60.json", ["analyse"]),
        ("events-1m.txt", ["monitor", "rules-20.json"]),
    ],
    "checks": [(f"of-{length}-1m.txt", ["check", "rules-561.json"]) for length in [20, 1000]],
}

TITLES = {
    "strings": "String logs of 26 letters",
    "reading": "Reading alone",
    "activities": "By the number of activities",
    "csv": "CSV logs",
    "models": "Models",
    "second": "The second repertoire",
    "keep": "Beyond the limit on states",
    "certificates": "Certificates",
    "by themselves": "Models compared, analysed and watched",
    "checks": "Checks",
}


# Programs


@dataclass
class Programs:
    """The paths of those that run side by side; whether the last one is the ordinary program."""

    paths: list
    ordinary: bool

    def marks(self):
        """What the heading of a table calls each."""
        numbered = [f" {number}" if len(self.paths) > 1 + self.ordinary else "" for number in range(1, len(self.paths) + 1)]
        return [*numbered[:-1], " ordinary"] if self.ordinary else numbered

    def ratio(self, seconds):
        """How many times the seconds of the ordinary program the one before it takes, where both have some."""
        if not self.ordinary:
            return []
        *_, own, ordinary = seconds
        return [f"{own / ordinary:.2f}" if own and ordinary else "-"]


def programs_of(given):
    paths = [os.path.abspath(program) for program in given.programs or [BUILT]]
    if given.ordinary:
        paths.append(os.path.join(os.path.abspath(given.folder), "ordinary"))
        subprocess.run(["rustc", "-O", "-o", paths[-1], ORDINARY], check=True)
    return Programs(paths, given.ordinary)


# Runs

ENVIRONMENT = dict(os.environ, LC_ALL="C.UTF-8")


@dataclass
class Printed:
    """What a run ends with and prints: its status, its line of refusal, and the sum of its output."""

    status: int
    line: str
    out: str


def printed(words):
    child = subprocess.Popen(["timeout", LIMIT, *words], env=ENVIRONMENT, stdout=subprocess.PIPE, stderr=subprocess.PIPE)
    out = hashlib.sha256()
    for piece in iter(lambda: child.stdout.read(1 << 20), b""):
        out.update(piece)
    line = child.stderr.read().decode().strip()
    return Printed(child.wait(), line, out.hexdigest())


def timed(words, folder):
    """Processor seconds (user) of a run, and its peak of memory in MB."""
    told = os.path.join(folder, "told")
    measured = ["/usr/bin/time", "-q", "-o", told, "-f", "%M", *words]
    null = subprocess.DEVNULL
    child = subprocess.Popen(measured, env=ENVIRONMENT, stdin=null, stdout=null, stderr=null)
    _, code, used = os.wait4(child.pid, 0)
    child.returncode = os.waitstatus_to_exitcode(code)
    with open(told, encoding="utf-8") as file:
        return used.ru_utime, int(file.read().split()[-1]) / 1024


def best(words, folder, repeat):
    runs = [timed(words, folder)]
    while len(runs) < repeat and runs[0][0] < 5:
        runs.append(timed(words, folder))
    return min(seconds for seconds, _ in runs), min(peak for _, peak in runs)


# Tables

def row(*cells):
    text = "| " + " | ".join(str(cell) for cell in cells) + " |"
    print(text, flush=True)
    return text


def head(programs):
    names = ["log", "command"]
    for mark in programs.marks():
        names += [f"user s{mark}", f"peak MB{mark}"]
    names += ["ratio"] * programs.ordinary + ["ends"] + ["the same"] * (len(programs.paths) > 1)
    return [row(*names), row(*["---"] * len(names))]


def outcome(result):
    return f"{result.status}" + (f" `{result.line}`" if result.line else "")


def compared(results):
    """Whether all that know the words print the same."""
    known = [result for result in results if result.status != USAGE]
    if len(known) < 2:
        return "not compared"
    return "yes" if all(result == known[0] for result in known) else "NO"


def in_folder(words, folder):
    """The words with the path of each file that is made here."""
    return [os.path.join(folder, word) if word in LOGS else word for word in words]


def ending(results):
    """That of the last that knows the words."""
    known = [result for result in results if result.status != USAGE]
    return outcome((known or results)[-1])


def measured_row(programs, name, words, given):
    with_paths = in_folder([*words, name], given.folder)
    results = [printed([program, *with_paths]) for program in programs.paths]
    cells, taken = [], []
    for program, result in zip(programs.paths, results):
        if result.status in (USAGE, 124):
            cells += ["-", "-"]
            taken.append(None)
        else:
            seconds, peak = best([program, *with_paths], given.folder, given.repeat)
            cells += [f"{seconds:.3f}", f"{peak:.1f}"]
            taken.append(seconds)
    same = [compared(results)] if len(results) > 1 else []
    cells += programs.ratio(taken)
    return row(name, " ".join(words), *cells, ending(results), *same), "NO" not in same


def known_rows(programs, rows, folder):
    """The rows whose command or stage some program knows."""
    known = {}
    for name, words in rows:
        asked = tuple(words[:3])
        if asked not in known:
            on_nothing = in_folder([*words, os.devnull], folder)
            known[asked] = any(printed([program, *on_nothing]).status != USAGE for program in programs.paths)
        if known[asked]:
            yield name, words


def tables(programs, given):
    lines, all_same = [], True
    for table in given.only:
        print(f"\n{TITLES[table]}", flush=True)
        lines += ["", f"## {TITLES[table]}", "", *head(programs)]
        for name, words in known_rows(programs, TABLES[table], given.folder):
            text, same = measured_row(programs, name, words, given)
            lines.append(text)
            all_same = all_same and same
    return lines, all_same


# The page

def machine():
    with open("/proc/cpuinfo", encoding="utf-8") as file:
        for line in file:
            if line.startswith("model name"):
                return line.split(":", 1)[1].strip()
    return platform.processor()


def load():
    return ", ".join(f"{number:.1f}" for number in os.getloadavg())


NOTES = """- Seconds are processor seconds of the program (user), the least of the runs; MB are its peak memory.
- N-M.txt: so many events in 26 letters, in traces of evenly spread lengths up to M. read-16m-39.txt is 16m-39.txt with a
  last line that isn't UTF-8: it's read to its end, counted, and then refused.
- names-N.txt: so many characters, in 80,000 traces of 12 (300) and 2,000 traces of 200 (500). letters-N.txt: 4,000,000 events in
  so many letters, in traces up to 39.
- line-N.txt: one trace of N different characters; line-N-M.txt: the same characters M times over in one trace.
- records-1m.csv: 1,000,000 records of 83,330 mixed cases; cases-1m.csv: a case for each record.
- process-N.txt: 2,000 traces of a process of N activities with a loop, a choice and two parallel branches, some of which have
  lost an event. any-26.txt: 26 letters without any order, in traces up to 12. rare-12-N.txt: 12 steps in a row, and N
  further activities that each come once.
- of-N-1m.txt: 1,000,000 events in 26 letters, in traces of N events. rules-561.json: 561 constraints over these letters, of all
  templates about as often."""


def page(lines, given, began, load_before):
    return "\n".join([
        "# The last tables of bench/run.py", "",
        f"Written by the script, {began:%Y-%m-%d %H:%M} UTC, best of {given.repeat} runs (a run above 5 seconds once).", "",
        f"- Processor: {machine()}, {os.cpu_count()} of them seen; {platform.system()} {platform.release()}.",
        f"- Load average of 1, 5 and 15 minutes at the start: {load_before}; at the end: {load()}.",
        NOTES, *lines, "",
    ])


def options():
    words = argparse.ArgumentParser(description=__doc__, formatter_class=argparse.RawDescriptionHelpFormatter)
    words.add_argument("programs", nargs="*", metavar="PROGRAM")
    words.add_argument("--ordinary", action="store_true", help="beside them the plain program bench/ordinary.rs")
    words.add_argument("--folder", default="/tmp/minerful-bench")
    words.add_argument("--repeat", type=int, default=3)
    words.add_argument("--only", nargs="+", choices=list(TABLES), default=list(TABLES))
    words.add_argument("--write", action="store_true", help="keep the tables in bench/RESULTS.md")
    return words.parse_args()


def main():
    given = options()
    make(given.folder)
    programs = programs_of(given)
    began, load_before = datetime.datetime.now(datetime.timezone.utc), load()
    for number, program in enumerate(programs.paths, 1):
        print(f"{number}: {program}")
    lines, all_same = tables(programs, given)
    if given.write:
        with open(os.path.join(HERE, "RESULTS.md"), "w", encoding="utf-8") as file:
            file.write(page(lines, given, began, load_before))
    return int(not all_same)


if __name__ == "__main__":
    sys.exit(main())
