#!/usr/bin/env python3
"""Makes a CSV event log of what the package manager of a Debian machine did.

    python3 examples/package_log.py [FILE ...] > /tmp/packages.csv

Reads the logs that dpkg keeps, /var/log/dpkg.log and the older ones beside it (.1, .2.gz and so on), or the files that
are named. A case is a package with its architecture. An activity is what dpkg set out to do with it (install, upgrade,
configure, trigproc, remove, purge, disappear), or the state that the package came to (unpacked, half-configured,
installed and others). Lines that concern no single package, such as `startup`, are left out. The records are ordered
by their time; those of one second stand as dpkg wrote them.
"""

import csv
import glob
import gzip
import sys

ACTIONS = {"install", "upgrade", "configure", "trigproc", "remove", "purge", "disappear"}


def lines_of(path):
    with (gzip.open if path.endswith(".gz") else open)(path, "rt", encoding="utf-8") as file:
        return file.read().splitlines()


def record_of(line):
    """The package, the activity and the time of a line, or nothing.

    2026-03-02 12:07:00 upgrade tar:amd64 1.34 1.35
    2026-03-02 12:07:00 status half-installed tar:amd64 1.34
    """
    match line.split():
        case [date, time, "status", state, package, *_]:
            return package, state, f"{date}T{time}"
        case [date, time, action, package, *_] if action in ACTIONS:
            return package, action, f"{date}T{time}"


def main():
    paths = sys.argv[1:] or glob.glob("/var/log/dpkg.log*")
    if not paths:
        sys.exit("There is no /var/log/dpkg.log: name a file that dpkg wrote.")
    files = [lines_of(path) for path in paths]
    # Each file begins with its oldest line, so this puts the oldest file first.
    lines = [line for file in sorted(files) for line in file]
    records = sorted(filter(None, map(record_of, lines)), key=lambda record: record[2])
    writer = csv.writer(sys.stdout, lineterminator="\n")
    writer.writerow(["package", "activity", "time"])
    writer.writerows(records)


if __name__ == "__main__":
    main()
