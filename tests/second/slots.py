"""The program `slots`, a second time: written from the scope paper and Item 1 of the
change requests alone, to be compared byte for byte with the proved program.

It differs from the obvious way in method: no counters are kept.  Every count is
read back from the list of choices since slot 0, slots and deadlines are absolute,
and virtual deadlines and loads are exact fractions.  The words in quotation marks
are the papers'.
"""

import re
import sys
from fractions import Fraction
from math import lcm
from typing import NamedTuple

# "Order 0 is V, 1 is W; model 0 is relaxed, 1 is original."
ORDER_V, ORDER_W = 0, 1
RELAXED, ORIGINAL = 0, 1

MOST_JOBS, MOST_T, MOST_K = 16, 4096, 255
MOST_CYCLE = 16_777_216
MOST_SLOTS = 4096
MOST_BYTES = 4096
IDLE = 255  # "one byte each, 0 to 15 or 255 for idle"


class Job(NamedTuple):
    """A line of the sheet, "C T m k"."""

    C: int
    T: int
    m: int
    k: int


# --- The list -------------------------------------------------------------------


def check(jobs):
    """Rows 1 to 6: (row, job at fault or None), (0, None) if the list is allowed."""
    if not jobs:  # 1, "no jobs"
        return 1, None
    if len(jobs) > MOST_JOBS:  # 2, "more than 16 jobs"
        return 2, None
    # "Rows 3 to 6 name the lowest job at fault, T before C before k before m."
    for number, (C, T, m, k) in enumerate(jobs):
        for row, value, most in (3, T, MOST_T), (4, C, T), (5, k, MOST_K), (6, m, k):
            if not 1 <= value <= most:
                return row, number
    return 0, None


def cycle_of(jobs):
    """ "The cycle H is the least common multiple of all kT." """
    return lcm(*(k * T for C, T, m, k in jobs))


def admission(jobs, model):
    """(row or 0, job at fault or None, cycle, load)."""
    # "it tests 15 for the model, 1, 2, then 3 to 6 as just said, 7, 8, 9.  Cycle and
    # load are 0 in each refusal but 9, which returns both."
    if model not in (RELAXED, ORIGINAL):
        return 15, None, 0, 0
    row, fault = check(jobs)
    if row:
        return row, fault, 0, 0
    if model == ORIGINAL:
        return 7, None, 0, 0
    cycle = cycle_of(jobs)
    if cycle > MOST_CYCLE:
        return 8, None, 0, 0
    # "The load is the sum over jobs of m times C times H/(kT)."
    load = cycle * sum(Fraction(m * C, k * T) for C, T, m, k in jobs)
    # "Admitted means load <= H"
    return (9 if load > cycle else 0), None, cycle, int(load)


# --- The slots ------------------------------------------------------------------


class View(NamedTuple):
    """A job as it stands before a slot; all times are slots counted from 0."""

    window: int  # where the window now open began
    window_end: int  # the first slot after it
    eligible: bool
    waiting: bool  # "has its m and still has an unserved instance come due"
    finished: int  # instances finished in the window
    deadline: Fraction | None  # None: "a job with m' = 0 has no virtual deadline"


class History:
    """The choices since slot 0, and what is read back from them."""

    def __init__(self, jobs, model):
        self.jobs = [Job(*job) for job in jobs]
        self.model = model
        self.choices = bytearray()
        self.counted = {}
        self.views = {}

    def finished(self, number, window):
        """Instances of a job finished so far in its window from slot `window`."""
        C, T, m, k = self.jobs[number]
        end = window + k * T
        given = self.choices.count(number, window, end)
        if self.model == RELAXED:
            # "Finished instances: u divided by C, rounded down."
            return given // C
        # "an instance is finished in each period with at least C slots of its job".
        # It changes only with the slots given, so each count is kept, for speed alone.
        key = number, window, given
        if key not in self.counted:
            periods = range(window, min(end, len(self.choices)), T)
            slots = (self.choices.count(number, at, at + T) for at in periods)
            self.counted[key] = sum(some >= C for some in slots)
        return self.counted[key]

    def view(self, number):
        C, T, m, k = self.jobs[number]
        now = len(self.choices)
        # "Its window is k times T slots; windows do not overlap."
        window = now - now % (k * T)
        period = now - now % T
        # Within a period a view changes only with the slots given, and is kept, for speed alone.
        key = number, period, self.choices.count(number, window)
        if key not in self.views:
            self.views[key] = self.viewed(number, window, period)
        return self.views[key]

    def viewed(self, number, window, period):
        """A job in the window and the period that began there."""
        C, T, m, k = self.jobs[number]
        p = (period - window) // T + 1
        done = self.finished(number, window)
        if self.model == RELAXED:
            # "eligible exactly if u < m times C and u < p times C"
            u = self.choices.count(number, window)
            eligible = u < m * C and u < p * C
            due = u < p * C  # "Relaxed: u < pC"
        else:
            # "Eligible exactly if s < m and v < C."
            v = self.choices.count(number, period)
            eligible = done < m and v < C
            due = done < p and v < C  # "original: s < p and v < C"
        # "k' = k-p+1, and m' = m minus the instances finished in this window";
        # "virtual deadline, period start + k'T/m'"
        k1, m1 = k - p + 1, m - done
        deadline = period + Fraction(k1 * T, m1) if m1 > 0 else None
        return View(window, window + k * T, eligible, done >= m and due, done, deadline)


def choose(views, order, spare):
    """The job given the slot, or None if it is idle."""
    # "lowest virtual deadline" (V), "soonest window end" (W), "Equal: the lower job
    # number.  None eligible: the slot is idle."
    key = "deadline" if order == ORDER_V else "window_end"
    ranks = [(getattr(it, key), number) for number, it in enumerate(views) if it.eligible]
    # "On, a slot with no eligible job [...] goes to a job that has its m and still has an
    # unserved instance come due; soonest window end first, then lower number."
    if spare and not ranks:
        ranks = [(it.window_end, number) for number, it in enumerate(views) if it.waiting]
    return min(ranks, default=(None, None))[1]


def run(jobs, order, model, slots, spare=False):
    """For each slot from 0: (choice or None, jobs first tagged, jobs ended short)."""
    history = History(jobs, model)
    tagged = set()  # (job, window) pairs, so a new window has no tag
    answers = []
    for now in range(slots):
        views = [history.view(number) for number in range(len(jobs))]
        choice = choose(views, order, spare)
        # "Give the slot: one more unit to the job chosen."
        history.choices.append(IDLE if choice is None else choice)
        tags, shorts = [], []
        for number, it in enumerate(views):
            # "Tag each job [...] that had m' > 0 before the slot and whose virtual deadline,
            # from the values before the slot, is at most the slot number + 1."
            late = it.deadline is not None and it.deadline <= now + 1
            # "the set of jobs first tagged in their window"
            if late and (number, it.window) not in tagged:
                # "Tag the job chosen too, unless it finishes an instance in that slot"
                if number != choice or history.finished(number, it.window) == it.finished:
                    tagged.add((number, it.window))
                    tags.append(number)
            # "A window is short exactly if it ends with m' > 0."
            if it.window_end == now + 1:
                if history.finished(number, it.window) < history.jobs[number].m:
                    shorts.append(number)
        answers.append((choice, tags, shorts))
    return answers


# --- The sheet ------------------------------------------------------------------

# "First line: V or W, R (relaxed) or O (original), slot count; then a line per job,
# C T m k.  Single spaces, each line ended by a line feed"; "Numbers are 0 or up to 5
# digits with no leading zero."  "Sheets gain an optional S after the slot count".
NUMBER = rb"(0|[1-9][0-9]{0,4})"
FIRST_LINE = re.compile(rb"([VW]) ([RO]) " + NUMBER + rb"( S)?\n")
JOB_LINE = re.compile(rb" ".join([NUMBER] * 4) + rb"\n")
# What is left of a line that has begun well can always be the end of one of these.
ENDINGS = {FIRST_LINE: b"V R 0 S\n", JOB_LINE: b"0 0 0 0\n"}


def begins(part, form):
    """Whether some line of this form begins with these bytes."""
    ending = ENDINGS[form]
    return any(form.fullmatch(part + ending[i:]) for i in range(len(ending) + 1))


def read(sheet):
    """(place or None, matched lines): None if the sheet is of the stated form."""
    matches, start, form = [], 0, FIRST_LINE
    # "the form allows any number of job lines, none too"
    while start < len(sheet) or form is FIRST_LINE:
        end = sheet.find(b"\n", start) + 1 or len(sheet)
        match = form.fullmatch(sheet, start, end)
        if not match:
            # "the place, counted from 0, of the first byte after which no sheet can
            # continue; the length, if the sheet ends too soon"
            for place in range(start, end):
                if not begins(sheet[start : place + 1], form):
                    return place, matches
            return len(sheet), matches
        matches.append(match)
        start, form = end, JOB_LINE
    return None, matches


# "the last word replaced by "over", "cycle too long" or "not judged""
VERDICTS = {0: "admitted", 9: "over", 8: "cycle too long", 7: "not judged"}


class Asked(NamedTuple):
    """What a sheet asks for that is not refused."""

    order: int
    model: int
    slots: int
    spare: bool
    jobs: list


def asked(sheet):
    """(the line of the refusal or None, what is asked or None)."""
    # "Tests 17, 13, 16, 1 to 6."; "A refusal prints only "refused N", with " job J"
    # for 3 to 6 or " at P" for 13."
    if len(sheet) > MOST_BYTES:
        return "refused 17", None
    place, matches = read(sheet)
    if place is not None:
        return f"refused 13 at {place}", None
    order, model, slots, spare = matches[0].groups()
    order, model, slots = b"VW".index(order), b"RO".index(model), int(slots)
    jobs = [Job(*map(int, match.groups())) for match in matches[1:]]
    if not 1 <= slots <= MOST_SLOTS:
        return "refused 16", None
    row, fault = check(jobs)
    if row:
        return f"refused {row}" + (f" job {fault}" if row >= 3 else ""), None
    return None, Asked(order, model, slots, spare is not None, jobs)


def admission_line(jobs, model):
    # "the numbers are those returned, so 0 and 0 in the last two"
    row, fault, cycle, load = admission(jobs, model)
    return f"cycle {cycle} load {load} {VERDICTS[row]}"


def lines(sheet):
    """The lines printed for a sheet, without their line feeds."""
    refusal, it = asked(sheet)
    if refusal:
        return [refusal]
    # "the slots are run in each case"
    out = [admission_line(it.jobs, it.model)]
    # "slot number, job or -, then t and number for each first tag, s and number for
    # each short window, each after a space, ascending"
    answers = run(it.jobs, it.order, it.model, it.slots, it.spare)
    for slot, (choice, tags, shorts) in enumerate(answers):
        words = [str(slot), "-" if choice is None else str(choice)]
        words += [f"t{number}" for number in tags] + [f"s{number}" for number in shorts]
        out.append(" ".join(words))
    # "Totals in the state: slots given, idle, first tags, short windows."
    idle = sum(choice is None for choice, _, _ in answers)
    tagged = sum(len(tags) for _, tags, _ in answers)
    short = sum(len(shorts) for _, _, shorts in answers)
    out.append(f"given {it.slots - idle} idle {idle} tagged {tagged} short {short}")
    return out


def output(sheet, lines=lines):
    """What the program with these lines prints for the bytes on its standard input."""
    return "".join(line + "\n" for line in lines(sheet)).encode("ascii")


def main(output):
    # One byte over the limit is enough to see that the sheet is over it.
    sys.stdout.buffer.write(output(sys.stdin.buffer.read(MOST_BYTES + 1)))


if __name__ == "__main__":
    main(output)
