"""The report of a link, read from its lines: eleven totals, a line for each open flow, and `end`."""
from dataclasses import dataclass

TOTALS = ("clock", "accepted", "written", "torn", "waiting", "dropped", "bytes", "past", "tickets", "pass", "link")


# Whether a flow competes, and whether it is held, by the word of its line.
STANDINGS = {"in": (True, False), "out": (False, False), "hld": (False, True)}


class NoReport(Exception):
    """A line that no report has in this place."""


@dataclass(frozen=True)
class FlowRow:
    """The line of an open flow in a report. `place` is its pass while it competes, and otherwise its remain. A flow
    that is held does not compete."""
    number: int
    name: str
    tickets: int
    waiting: int
    account: int
    competes: bool
    held: bool
    place: int


@dataclass(frozen=True)
class Report:
    """`totals` has a number for each of TOTALS, `flows` a row for each number of an open flow."""
    totals: dict
    flows: dict


def flow_row(words):
    """The row of a line `flow ..`, from its words."""
    try:
        _, number, name, tickets, waiting, account, standing, place = words
        return FlowRow(int(number), name, int(tickets), int(waiting), int(account), *STANDINGS[standing], int(place))
    except (ValueError, KeyError):
        raise NoReport("no line of a report: '%s'" % " ".join(words)) from None


def read_report(next_line):
    """Reads a report by calls of `next_line`, each of which gives a line of text without its line feed."""
    totals, flows = {}, {}
    for key in TOTALS:
        words = next_line().split()
        if len(words) != 2 or words[0] != key or not words[1].lstrip("-").isdigit():
            raise NoReport("no line of a report: '%s'" % " ".join(words))
        totals[key] = int(words[1])
    words = next_line().split()
    while words != ["end"]:
        row = flow_row(words)
        flows[row.number] = row
        words = next_line().split()
    return Report(totals, flows)
