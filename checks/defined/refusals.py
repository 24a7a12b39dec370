"""Refusals: their exit statuses, and their lines on standard error."""

STATUSES = {
    "Usage": (2, "usage, place {}"),
    "NotUtf8": (3, "line {} is not UTF-8"),
    "Header": (3, "no column, place {}"),
    "ShortRow": (3, "record {} is too short"),
    "RowText": (3, "record {} is not UTF-8"),
    "RowOrder": (3, "record {} has no order number"),
    "NoTab": (3, "line {} has no tab"),
    "NotJson": (4, "the model is not JSON"),
    "ModelShape": (4, "model shape, constraint {}"),
    "UnknownTemplate": (4, "unknown template, constraint {}"),
    "Parameters": (4, "wrong parameters, constraint {}"),
    "SameParameter": (4, "same parameter twice, constraint {}"),
    "CertShape": (4, "certificate shape, part {}"),
    "LineLong": (5, "line {} is too long"),
    "Bytes": (5, "more than {} bytes"),
    "Traces": (5, "more than {} traces"),
    "Events": (5, "more than {} events"),
    "Activities": (5, "more than {} activities"),
    "Candidates": (5, "{} constraints are too many"),
    "States": (5, "too many states, phase {}, constraints {}"),
    "ReadFault": (6, "read fault"),
    "WriteFault": (7, "write fault"),
}


class Refused(Exception):
    """The run is refused, by the name of the refusal and its numbers."""

    def __init__(self, name, *numbers):
        super().__init__(name, *numbers)
        # The name, and of the limit on states the phase too.
        self.told = f"{name}, phase {numbers[0]}" if name == "States" else name
        self.status, text = STATUSES[name]
        self.line = f"minerful: {text.format(*numbers)}\n".encode()
