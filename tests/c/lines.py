#!/usr/bin/env python3
"""lines.py check|reports: the worked rows as the programs check.c and reports.c read them, a row a line."""

import sys

from rows import prepared, reports, rows


def of_check():
    for name, data, answer in rows():
        yield name, data, "%d@%d" % answer if isinstance(answer, tuple) else answer


def of_reports():
    for name, call, data, answer in reports():
        yield call, name, "0", data[0], data[1] if call == "diff" else b"", told(answer), "0,0,0,0,0"
    # Of the rows of `oasprep` those that leave something out or stop in a block.
    for name, drop, data, answer in prepared():
        text, counts = answer if len(answer) == 2 else (answer, [0] * 5)
        if drop or text is answer and answer[-1] is not None:
            yield "prepare", name, str(drop), data, b"", told(text), ",".join(map(str, counts))


def told(answer):
    """A refusal as reports.c reads it; an output is as it is."""
    if not isinstance(answer, tuple):
        return answer
    number, file, at, within = answer
    return "@".join(map(str, [number, file, at, int(within is not None), within or 0]))


def main():
    for fields in {"check": of_check, "reports": of_reports}[sys.argv[1]]():
        print(*(field if isinstance(field, str) else field.hex() or "-" for field in fields))


main()
