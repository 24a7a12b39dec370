"""The log that a string input or a CSV input holds, or why it has none. A log here is a list of lists of names."""

from defined.refusals import Refused

EVENTS = 16_777_215
TRACES = 1_048_575
ACTIVITIES = 1_000
LINE_BYTES = 1_048_576
CSV_BYTES = 134_217_728

BYTE_ORDER_MARK = b"\xef\xbb\xbf"


def is_text(data):
    try:
        data.decode("utf-8")
    except UnicodeDecodeError:
        return False
    return True


# String logs.


def lines(data):
    """Each line as it stands before its line feed, and its text: without one carriage return before the line feed."""
    pieces = data.split(b"\n")
    ended, last = pieces[:-1], pieces[-1]
    found = [(piece, piece.removesuffix(b"\r")) for piece in ended]
    return found + [(last, last)] if last else found


def string_log(data):
    log, events, names = [], 0, set()
    for number, (piece, text) in enumerate(lines(data), 1):
        if len(piece) > LINE_BYTES:
            raise Refused("LineLong", number)
        if number > TRACES:
            raise Refused("Traces", TRACES)
        if not is_text(text):
            raise Refused("NotUtf8", number)
        trace = list(text.decode("utf-8"))
        events += len(trace)
        names |= set(trace)
        if events > EVENTS:
            raise Refused("Events", EVENTS)
        if len(names) > ACTIVITIES:
            raise Refused("Activities", ACTIVITIES)
        log.append(trace)
    return log


# Records of CSV.


def plain_field(data, at):
    """The bytes from here to a comma or a line end, and where they end."""
    end = at
    while end < len(data) and data[end] not in b",\r\n":
        end += 1
    return data[at:end], end


def quoted_field(data, at):
    """From behind a quote to the closing one, two quotes being one quote, and what stands behind it up to a comma."""
    field = b""
    while at < len(data):
        if data[at : at + 2] == b'""':
            field, at = field + b'"', at + 2
        elif data[at : at + 1] == b'"':
            rest, end = plain_field(data, at + 1)
            return field + rest, end
        else:
            field, at = field + data[at : at + 1], at + 1
    return field, at


def field_at(data, at):
    if data[at : at + 1] == b'"':
        return quoted_field(data, at + 1)
    return plain_field(data, at)


def record_at(data, at):
    field, at = field_at(data, at)
    record = [field]
    while data[at : at + 1] == b",":
        field, at = field_at(data, at + 1)
        record.append(field)
    return record, at


def records(data):
    """The records of a text. Line ends between them are passed over, so an empty line is none."""
    found, at = [], 0
    while at < len(data):
        if data[at] in b"\r\n":
            at += 1
        else:
            record, at = record_at(data, at)
            found.append(record)
    return found


# CSV logs.


def order_number(value):
    """The whole number that an order value writes, or None."""
    digits = value.removeprefix(b"-")
    if not 1 <= len(digits) <= 18 or not all(byte in b"0123456789" for byte in digits):
        return None
    return int(value)


def column_places(header, wanted):
    """The place of each wanted column: the first with its name."""
    for which, name in enumerate(wanted, 1):
        if name not in header:
            raise Refused("Header", which)
    return [header.index(name) for name in wanted]


def row_fault(row, number, places, by_number):
    if any(place >= len(row) for place in places):
        raise Refused("ShortRow", number)
    if not is_text(row[places[0]]) or not is_text(row[places[1]]):
        raise Refused("RowText", number)
    if by_number and len(places) == 3 and order_number(row[places[2]]) is None:
        raise Refused("RowOrder", number)


def limit_fault(events, cases, names):
    if events > EVENTS:
        raise Refused("Events", EVENTS)
    if len(cases) > TRACES:
        raise Refused("Traces", TRACES)
    if len(names) > ACTIVITIES:
        raise Refused("Activities", ACTIVITIES)


def csv_log(data, columns, by_number):
    """`columns` are the names of the case column, the activity column and, where one is asked, the order column."""
    if len(data) > CSV_BYTES:
        raise Refused("Bytes", CSV_BYTES)
    # One mark is dropped here, and the next by the reader of records.
    for _ in range(2):
        data = data.removeprefix(BYTE_ORDER_MARK)
    header, *rows = records(data) or [[]]
    places = column_places(header, [name.encode() for name in columns])
    cases, names = {}, set()
    for number, row in enumerate(rows, 2):
        row_fault(row, number, places, by_number)
        case, activity, *order = [row[place] for place in places]
        value = [order_number(text) if by_number else text for text in order]
        cases.setdefault(case, []).append((value, activity.decode("utf-8")))
        names.add(activity)
        limit_fault(number - 1, cases, names)
    # sorted() keeps the order of equal values.
    return [[name for _, name in sorted(events, key=lambda event: event[0])] for events in cases.values()]
