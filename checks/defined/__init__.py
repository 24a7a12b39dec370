"""The definitions of docs/DEFINITIONS.md once more, in Python. Nothing here is taken from the program's code.

Everything but the texts speaks of ranks: a trace is a tuple of ranks, a log a list of traces, and a constraint a
template's name with a tuple of one or two ranks.
"""
