"""The lines that a monitor prints: where each case stands after each of its events."""

from defined.comparison import refuse_wide, standing
from defined.logs import EVENTS, LINE_BYTES, TRACES, is_text, lines
from defined.refusals import Refused
from defined.texts import over_one_order, quoted

CONSTRAINTS = 1_000


def model_watched(model, states):
    """The names in the order of their bytes and the constraints over them, tried before the log is opened."""
    names, (constraints,) = over_one_order(model)
    if len(constraints) > CONSTRAINTS:
        raise Refused("Candidates", len(constraints))
    refuse_wide(5, len(names) + 1, constraints, states)
    return names, constraints


def case_and_name(number, piece, text):
    """The first tab of a line divides them."""
    if len(piece) > LINE_BYTES:
        raise Refused("LineLong", number)
    if not is_text(text):
        raise Refused("NotUtf8", number)
    case, tab, name = text.decode("utf-8").partition("\t")
    if not tab:
        raise Refused("NoTab", number)
    return case, name


def watched(names, constraints, data, most):
    """The text of each line, in turn; the first at fault is refused when it comes."""
    places, size, traces = {name: place for place, name in enumerate(names)}, len(names) + 1, {}
    for number, (piece, text) in enumerate(lines(data), 1):
        case, name = case_and_name(number, piece, text)
        if number > EVENTS:
            raise Refused("Events", EVENTS)
        if case not in traces and len(traces) == TRACES:
            raise Refused("Traces", TRACES)
        trace = traces[case] = (*traces.get(case, ()), places.get(name, size - 1))
        single = "".join(standing([constraint], trace, size, most) for constraint in constraints)
        whole = standing(constraints, trace, size, most)
        yield f"{number} {quoted(case)} {whole} {single or '-'}\n".encode()
