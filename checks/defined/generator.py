"""The generator of logs."""

MODULUS = 2_147_483_647
FACTOR = 48_271

# What `sample` mines.
SAMPLE = {"traces": 2_000, "length": 12, "letters": 6}


def generated(seed, traces, length, letters):
    """A string log: a trace a line."""
    state = 1 + seed % (MODULUS - 1)

    def draw(below):
        nonlocal state
        state = FACTOR * state % MODULUS
        return state % below

    text = bytearray()
    for _ in range(traces):
        more = draw(length)
        letter = draw(2) % letters
        text.append(97 + letter)
        for _ in range(more):
            letter = (letter + draw(3)) % letters
            text.append(97 + letter)
        text += b"\n"
    return bytes(text)
