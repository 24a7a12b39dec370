"""What a run comes to, for its words and what its inputs hold."""

import re
from dataclasses import dataclass, field

from defined import texts
from defined.certificates import certificate_of, verdict
from defined.comparison import analysed, compared
from defined.expressions import EXPRESSIONS
from defined.generator import SAMPLE, generated
from defined.logs import csv_log, string_log
from defined.models import check, model_of
from defined.monitor import model_watched, watched
from defined.reduction import Searches, reduced, reduced_within, without
from defined.refusals import Refused
from defined.scores import candidates
from defined.words import settings

CANDIDATES = 65_536
DONE, DIFFERS = 0, 1


@dataclass
class Input:
    """What an input holds; where it fails, a read behind these bytes does."""

    data: bytes
    fails: bool = False


@dataclass
class Outcome:
    """The exit status, what stands on standard output and on standard error, and the name of a refusal.

    Where a certificate is asked for, its report stands for it: a report has more than one chain.
    """

    status: int
    out: bytes
    err: bytes
    refusal: str = ""
    certifies: bool = False


def ranked(named):
    """The names in the order of their bytes, and the traces with each name replaced by its place in this order."""
    names = sorted({name for trace in named for name in trace}, key=lambda name: name.encode())
    rank = {name: place for place, name in enumerate(names)}
    return names, [tuple(rank[name] for name in trace) for trace in named]


@dataclass
class Definitions:
    """The definitions. All searches of a run are counted."""

    traces_tried: int
    counted: list = field(default_factory=list)
    samples: dict = field(default_factory=dict)

    def outcome(self, words, read):
        """`read` gives an Input by its name, or None where it can't be opened or not be read at all."""
        written = []
        try:
            given = settings(words)
            status, text = self.answer(given, read, written)
            return Outcome(status, text, b"", certifies=given["out"] == "cert")
        except Refused as refused:
            return Outcome(refused.status, b"".join(written), refused.line, refused.told)

    def answer(self, given, read, written):
        """The status and the text. What stands on the output before that is put behind what is written."""
        match given["command"]:
            case "kb":
                return DONE, texts.kb_table(*ranked(self.log(given, read)))
            case "mine":
                return DONE, self.mined(given, *ranked(self.log(given, read)))
            case "check":
                return self.checked(given, read)
            case "gen":
                return DONE, generated(*(given[name] for name in ["seed", "traces", "length", "letters"]))
            case "sample":
                return DONE, self.sampled(given)
            case "verify":
                return self.verified(given, read)
            case "monitor":
                return self.monitored(given, read, written)
            case "compare":
                return self.compared(given, read)
            case "analyse":
                return self.analysed(given, read)
            case "regex":
                return self.expressed(given["model"], given["word"])

    # Inputs.

    def log(self, given, read):
        found = read(given["log"])
        if found is None:
            raise Refused("ReadFault")
        if given["format"] == "string":
            return self.string_log(found)
        if found.fails:
            raise Refused("ReadFault")
        columns = [given[name] for name in ["case-column", "activity-column", "order-column"] if given[name] is not None]
        return csv_log(found.data, columns, given["order-as"] == "number")

    def string_log(self, found):
        """Lines are tried as they come: one at fault that was read whole comes before a read that fails."""
        if not found.fails:
            return string_log(found.data)
        string_log(found.data[: found.data.rfind(b"\n") + 1])
        raise Refused("ReadFault")

    def whole(self, name, read):
        found = read(name)
        if found is None or found.fails:
            raise Refused("ReadFault")
        return found.data

    def model(self, given, read, field="model"):
        return model_of(self.whole(given[field], read))

    # Commands.

    def mined(self, given, names, log):
        scored, model, searches = self.model_of(given, names, log)
        if model is None:
            listed, told = [texts.Listed(*each) for each in scored], {}
        else:
            listed = [texts.Listed(*each) for each in scored if each[0] not in model.why]
            dropped = [each for each in scored if each[0] in model.why]
            told = {"dropped": dropped, "example": searches.least_trace(model.kept)}
        if given["stage"] == "model":
            for each in listed:
                if each.constraint in model.untested:
                    each.untested = True
                else:
                    each.witness = searches.least_trace(without(model.kept, each.constraint), each.constraint)
        if given["out"] == "table":
            return texts.model_table(names, listed, given["stage"] == "model")
        return texts.report(names, log, listed, model, given["repertoire"], **told)

    def model_of(self, given, names, log):
        """The candidates with their scores, and, but for stage `scores`, what becomes of them."""
        thresholds = [given[name] for name in ["support", "confidence", "interest"]]
        scored = candidates(log, len(names), given["repertoire"], thresholds)
        if len(scored) > CANDIDATES:
            raise Refused("Candidates", len(scored))
        if given["stage"] == "scores":
            return scored, None, None
        searches = Searches(len(names), self.traces_tried)
        self.counted.append(searches)
        constraints = [constraint for constraint, _ in scored]
        reduce = reduced_within if given["on-limit"] == "keep" else reduced
        return scored, reduce(constraints, given["stage"], searches, given["max-states"]), searches

    def checked(self, given, read):
        """Differs where some trace breaks some constraint."""
        names, constraints = self.model(given, read)
        rows = check(names, constraints, self.log(given, read))
        return DIFFERS if any(row.broken for row in rows) else DONE, texts.check_table(names, constraints, rows)

    def compared(self, given, read):
        """The first is read and tried before the second is opened."""
        models = [self.model(given, read, field) for field in ["model", "log"]]
        names, (first, second) = texts.over_one_order(*models)
        found = compared(first, second, len(names) + 1, given["max-states"], self.traces_tried)
        return DONE if found[0] == "equal" else DIFFERS, texts.comparison(names, *found)

    def analysed(self, given, read):
        names, (model,) = texts.over_one_order(self.model(given, read))
        found = analysed(model, len(names) + 1, given["max-states"], given["first"], self.traces_tried)
        return DONE, texts.analysis(names, *found)

    def verified(self, given, read):
        wrong = verdict(certificate_of(self.whole(given["model"], read)))
        return (DIFFERS, "no, check {}, item {}\n".format(*wrong).encode()) if wrong else (DONE, b"yes\n")

    def monitored(self, given, read, written):
        """Lines are written as they come. The model is tried before the log is opened."""
        names, model = model_watched(self.model(given, read), given["max-states"])
        found = read(given["log"])
        if found is None:
            raise Refused("ReadFault")
        data = found.data[: found.data.rfind(b"\n") + 1] if found.fails else found.data
        for line in watched(names, model, data, self.traces_tried):
            written.append(line)
        if found.fails:
            raise Refused("ReadFault")
        return DONE, b"".join(written)

    def sampled(self, given):
        """Each seed once, since it takes seconds."""
        if given["seed"] not in self.samples:
            names, log = ranked(string_log(generated(given["seed"], *SAMPLE.values())))
            scored, model, _ = self.model_of(given, names, log)
            self.samples[given["seed"]] = texts.summary(given["seed"], names, log, scored, model)
        return self.samples[given["seed"]]

    def expressed(self, template, word):
        """The expression; or whether it matches the word, and Differs where it doesn't."""
        if word is None:
            return DONE, f"{EXPRESSIONS[template]}\n".encode()
        return (DONE, b"yes\n") if re.fullmatch(EXPRESSIONS[template], word) else (DIFFERS, b"no\n")
