"""Cases of what an analysis proves: its bounds, and a schedule that comes up to them."""
import json
import re

from setting import Case


def bounded(shows, protocol, bounds, set):
    """The bounds of a set, whatever proves them."""
    says = re.escape(f'{{"bounds":{bounds},'.replace(" ", "")) + r'"duals":.*,"protocol":"' + re.escape(protocol) + r'",.*\}\n'
    return Case(f"{shows}, {protocol}", f"analyse {protocol} set", re.compile(says), 0, {"set": set})


def audited(kind, protocol, set, jobs, rows, says):
    """A lawful schedule in which what is charged to the columns of a row of this kind comes to the row's limit, beside what is proved. Jobs
    and rows are given without their headers.

    One task is blocked for as long as its value says. If the limit is above 0, the value's dual counts the row. So nothing of the limit is
    left: what is left of a row that the dual counts is lacking in the blocked ticks.
    """
    files = {"set": set, "jobs": "task,release,script\n" + jobs, "rows": header_of(set) + rows}
    return Case(f"a schedule that meets {kind} with equality, {protocol}", f"audit {protocol} set cert jobs rows", says, 0, files,
                before=((f"analyse {protocol} set", "cert"),))


def header_of(set):
    """The header of the rows of a set."""
    parts = json.loads(set)
    processors = [f"P{number + 1}" for number in range(parts["processors"])]
    return ",".join(["ticks", *processors, *(one["name"] for one in parts["resources"])]) + "\n"
