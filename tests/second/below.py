"""The program `below`, a second time: one cycle is run by the second program's own slots,
and the windows that end short in it are counted.

The run repeats after a cycle: all windows end there together.  So what one cycle tells is
the answer for all time.
"""

from typing import NamedTuple

import slots
from slots import MOST_CYCLE, ORDER_V, ORDER_W, ORIGINAL, RELAXED, admission_line, asked, check, cycle_of, run


class Shortfall(NamedTuple):
    """What a cycle tells of a job."""

    windows: int  # in a cycle
    short: int  # of these
    first: int | None  # slot in which one ends short


def shortfalls(jobs, order, model, spare):
    """(row or 0, a Shortfall for each job): a start's tests, then row 8."""
    # "a start tests 15, then 1 to 6"
    if order not in (ORDER_V, ORDER_W) or model not in (RELAXED, ORIGINAL):
        return 15, []
    row = check(jobs)[0]
    if row:
        return row, []
    cycle = cycle_of(jobs)
    if cycle > MOST_CYCLE:
        return 8, []
    ended = [[] for _ in jobs]  # the slots in which a window of the job ends short
    for slot, (_, _, shorts) in enumerate(run(jobs, order, model, cycle, spare)):
        for number in shorts:
            ended[number].append(slot)
    return 0, [
        Shortfall(cycle // (k * T), len(at), min(at, default=None))
        for (C, T, m, k), at in zip(jobs, ended)
    ]


def job_line(number, it):
    if it.first is None:
        return f"job {number} never below"
    return f"job {number} below in {it.short} of {it.windows} windows a cycle, first in slot {it.first}"


def lines(sheet):
    """The lines printed for a sheet, without their line feeds."""
    refusal, it = asked(sheet)
    if refusal:
        return [refusal]
    out = [admission_line(it.jobs, it.model)]
    row, found = shortfalls(it.jobs, it.order, it.model, it.spare)
    if row:  # the sheet passed all rows but 8
        return out + ["not judged"]
    out += [job_line(number, one) for number, one in enumerate(found)]
    below = sum(one.short > 0 for one in found)
    out.append(f"{below} of {len(found)} jobs fall below" if below else "no job falls below")
    return out


def output(sheet):
    """What the program prints for the bytes on its standard input."""
    return slots.output(sheet, lines)


if __name__ == "__main__":
    slots.main(output)
