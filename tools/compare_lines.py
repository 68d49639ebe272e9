"""The lines of a table of cases, and what the program `compare` must print of them."""

import re
from dataclasses import dataclass
from itertools import groupby

from site_cases import Case
from site_traffic import MOST_STATES

UNMARKED = 0xA5A5  # what `compare` has in every place of a map before


def in_runs(found):
    """Marks in words: equal neighbours as MARK*COUNT, and a single one as MARK."""
    runs = [(mark, len(list(run))) for mark, run in groupby(found)]
    return " ".join(str(mark) if count == 1 else f"{mark}*{count}" for mark, count in runs)


@dataclass
class Line:
    """What a line of the table tells of a file, right or wrong."""

    text: str  # the file in hex, or what is no hex
    lines: list[str]  # of the verdict
    found: list[int] | None  # the marks
    written: str  # the file that is written back, in hex

    @staticmethod
    def of(case):
        """The line that is right."""
        return Line(case.hexed(), case.lines, case.found, case.hexed())

    def verdict(self):
        return ", ".join(self.lines)

    def row(self):
        row = f"{self.text}: {self.verdict()}"
        if self.found is not None:
            row += f"; marks {in_runs(self.found)}"
        if self.written != self.text:
            row += f"; written {self.written}"
        return row


def whole_map(found):
    """The map of a file with these marks, and with UNMARKED in every place behind them."""
    marked = found or []
    return marked + [UNMARKED] * (MOST_STATES - len(marked))


def map_differences(case, line):
    """The first difference alone is told."""
    expected = whole_map(line.found)
    if len(expected) > MOST_STATES:
        return ["more marks than a map has room for"]
    for place, (has, wanted) in enumerate(zip(whole_map(case.found), expected, strict=True)):
        if has != wanted:
            return [f"place {place} of the map has {has}, expected {wanted}"]
    return []


def written_differences(case, line):
    """A refused file is not written back."""
    if case.found is None or line.written == case.hexed():
        return []
    other_file = f"not written back as {line.written}"
    if len(line.written) == len(case.hexed()):
        return [other_file]
    return [other_file, "a byte too few is not refused as expected"]


def difference_lines(case: Case, line: Line):
    """What is printed of the line, where this is the case."""
    if not re.fullmatch("([0-9A-F]{2})*", line.text):
        return [f"{line.text}: no hex"]
    told = []
    if line.lines != case.lines:
        told += [f"{line.text}: expected {line.verdict()}, found", *case.lines]
    others = map_differences(case, line) + written_differences(case, line)
    return told + [f"{line.text}: {other}" for other in others]


def tally_lines(cases, wrong=0, differences=0):
    """What is printed at the end, where all these cases agree. Differences are found in so many of the lines that are wrong
    on purpose."""
    accepted = sum(case.found is not None for case in cases)
    refused = len(cases) - accepted
    return [
        f"{len(cases)} cases: {len(cases)} verdicts agree",
        f"{accepted} accepted files: {accepted} maps agree, {accepted} written back",
        f"{refused} refused files: {refused} maps left alone",
        f"{wrong} lines wrong on purpose: {differences} differences found",
    ]
