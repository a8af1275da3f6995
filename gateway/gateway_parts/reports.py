"""A report as a gateway tells it. What reads a report is of the package for users, in the folder `python` beside this one."""
import os
import re
import sys

sys.path.append(os.path.join(os.path.dirname(os.path.abspath(__file__)), "../../python"))
from fgate.reports import NotAReport, parsed

__all__ = ["NotAReport", "parsed", "without_empties"]


def without_empties(text, flow, empties):
    """The text with so many fewer `bad` in the flow's row, which were records that the gateway made."""
    def less(line):
        return f"{line[1]}{max(0, int(line[2]) - empties)}"
    return re.sub(rf"^(row {flow} .* bad )(\d+)$", less, text, flags=re.MULTILINE)
