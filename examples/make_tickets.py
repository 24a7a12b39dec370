#!/usr/bin/env python3
"""Makes tickets.csv and tickets-next.csv beside it: the tickets of a help desk, the same bytes at each run.

    python3 examples/make_tickets.py

A ticket is opened and given to a group; it's worked on, and may wait for the customer, or be passed to a second
group, some times over; then it's solved, and closed or opened again. A few tickets are withdrawn early. Records of
different tickets are mixed, as an export has them.

In the next quarter some tickets are worked on before a group has them, and some are closed because the customer doesn't
answer.
"""

import csv
import datetime
import os
import random
from dataclasses import dataclass

CLERKS = ["Amara Osei", "Lindqvist, Nils", "Priya Raman", "Tomas Vega"]


@dataclass
class Quarter:
    """A file: its seed, the numbers of its tickets, its first day, and how often a step is left out."""

    name: str
    seed: int
    numbers: range
    first_day: datetime.datetime
    not_assigned: float = 0
    not_answered: float = 0


QUARTERS = [
    Quarter("tickets.csv", 2026, range(1, 61), datetime.datetime(2026, 3, 2, 8, 0, 0)),
    Quarter("tickets-next.csv", 2027, range(61, 101), datetime.datetime(2026, 6, 1, 8, 0, 0), 0.08, 0.1),
]


def happens(source, often):
    return often > 0 and source.random() < often


def steps_of(source, quarter):
    """The steps of one ticket."""
    steps = ["Open"] if happens(source, quarter.not_assigned) else ["Open", "Assign"]
    if source.random() < 0.06:
        return steps + ["Withdraw"]
    while True:
        steps.append("Work")
        if source.random() < 0.35:
            steps.append("Ask, wait")
            if happens(source, quarter.not_answered):
                return steps + ["Close"]
            steps.append("Answer, customer")
            continue
        if source.random() < 0.25:
            steps += ["Escalate", "Assign"]
            continue
        steps.append("Solve")
        if source.random() < 0.12:
            steps.append("Reopen")
            continue
        return steps + ["Close"]


def records_of(quarter):
    """The records of a quarter, by time."""
    source, records = random.Random(quarter.seed), []
    for number in quarter.numbers:
        moment = quarter.first_day + datetime.timedelta(minutes=source.randrange(14 * 24 * 60))
        for step in steps_of(source, quarter):
            records.append((moment.isoformat(), f"T-{number:03}", step, source.choice(CLERKS)))
            moment += datetime.timedelta(minutes=source.randint(5, 1500))
    return sorted(records)


def main():
    for quarter in QUARTERS:
        path = os.path.join(os.path.dirname(os.path.abspath(__file__)), quarter.name)
        with open(path, "w", newline="", encoding="utf-8") as file:
            writer = csv.writer(file, lineterminator="\n")
            writer.writerow(["ticket", "step", "time", "clerk"])
            writer.writerows([ticket, step, moment, clerk] for moment, ticket, step, clerk in records_of(quarter))


if __name__ == "__main__":
    main()
