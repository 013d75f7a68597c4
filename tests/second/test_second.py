"""Tests of the second program: the papers' runs, edges, and sheets worked by hand.

Plain Python: `python3 test_second.py` prints a count and fails with status 1.
"""

import sys
from functools import partial
from itertools import permutations, product

sys.dont_write_bytecode = True

import below
import sheets
from slots import ORDER_V, ORDER_W, ORIGINAL, RELAXED, admission, check, output, run

done = failed = 0


def equal(name, found, expected):
    global done, failed
    done += 1
    if found != expected:
        failed += 1
        print(f"FAILED {name}\n  expected {expected!r}\n  found    {found!r}")


def jobs(text):
    """Jobs written C T m k, with commas between them."""
    return [tuple(map(int, job.split())) for job in text.split(",")]


def choices(text, order, model, slots, spare=False):
    answers = run(jobs(text), order, model, slots, spare)
    return " ".join("-" if choice is None else str(choice) for choice, _, _ in answers)


def prints(name, sheet, *lines, output=output):
    expected = "".join(line + "\n" for line in lines)
    equal(name, output(sheet.encode("latin-1")).decode("ascii"), expected)


falls = partial(prints, output=below.output)


# --- Runs worked by hand, A to I ------------------------------------------------

R, O, V, W = RELAXED, ORIGINAL, ORDER_V, ORDER_W
A, C, E = "1 2 1 2, 1 3 2 2", "2 4 1 1, 1 2 2 4", "2 3 1 2, 1 2 1 1"
F, G = "1 1 1 1, 1 2 1 1", "1 2 1 1, 2 2 1 1"
equal("A", choices(A, W, R, 6), "0 1 - 1 0 -")
equal("B", choices(A, V, R, 6), "1 0 - 1 0 -")
equal("C", choices(C, W, R, 8), "0 0 1 1 0 0 - -")
equal("D", choices(C, W, O, 8), "0 0 1 - 0 0 1 -")
equal("E", choices(E, W, R, 6), "1 0 1 0 1 -")
equal("F", run(jobs(F), W, R, 2), [(0, [], []), (0, [1], [1])])
# "Case G then tags job 1 in slot 1."
equal("G", run(jobs(G), W, R, 2), [(0, [], []), (1, [1], [1])])
equal("H", admission(jobs("1 2 1 1, 1 3 1 1, 1 6 1 1"), R), (0, None, 6, 6))
equal("I", admission(jobs("1 2 1 1, 1 2 1 1, 1 100 1 255"), R), (9, None, 25_500, 25_501))

# "in case A with spare on, slot 2 goes to job 0": it has its m, u = 1 < pC = 2.  In slot
# 5 neither is behind its periods.
equal("A, spare", choices(A, W, R, 6, True), "0 1 0 1 0 -")
equal("B, spare", choices(A, V, R, 6, True), "1 0 0 1 0 -")
# C: in slots 6 and 7 job 1 has u = 2 and 3, and 4 have come due.  D: in slots 3 and 7 it
# has v = C, so nothing changes.  E: in slot 5 job 0 has u = 2, and 4 have come due.
equal("C, spare", choices(C, W, R, 8, True), "0 0 1 1 0 0 1 1")
equal("D, spare", choices(C, W, O, 8, True), "0 0 1 - 0 0 1 -")
equal("E, spare", choices(E, W, R, 6, True), "1 0 1 0 1 0")

# "Whole output of `slots` for case A"
prints(
    "A whole",
    "W R 6\n1 2 1 2\n1 3 2 2\n",
    "cycle 12 load 7 admitted",
    "0 0",
    "1 1",
    "2 -",
    "3 1",
    "4 0",
    "5 -",
    "given 4 idle 2 tagged 0 short 0",
)
# "slot 1 of case F: "1 0 t1 s1""
prints(
    "F whole",
    "W R 2\n1 1 1 1\n1 2 1 1\n",
    "cycle 2 load 3 over",
    "0 0",
    "1 0 t1 s1",
    "given 2 idle 0 tagged 1 short 1",
)

# --- Edges ----------------------------------------------------------------------

equal("T 4,096", check(jobs("1 4096 1 1")), (0, None))
equal("T 4,097", check(jobs("1 4097 1 1")), (3, 0))
equal("T 0", check(jobs("1 0 1 1")), (3, 0))
equal("C = T", check(jobs("7 7 1 1")), (0, None))
equal("C = T+1", check(jobs("8 7 1 1")), (4, 0))
equal("C 0", check(jobs("0 7 1 1")), (4, 0))
equal("k 255", check(jobs("1 1 1 255")), (0, None))
equal("k 256", check(jobs("1 1 1 256")), (5, 0))
equal("k 0", check(jobs("1 1 1 0")), (5, 0))
equal("m = k", check(jobs("1 1 3 3")), (0, None))
equal("m = k+1", check(jobs("1 1 4 3")), (6, 0))
equal("m 0", check(jobs("1 1 0 3")), (6, 0))
equal("no jobs", check([]), (1, None))
equal("16 jobs", check(jobs("1 1 1 1") * 16), (0, None))
equal("17 jobs", check(jobs("1 1 1 1") * 17), (2, None))
equal("17 jobs at fault", check(jobs("0 0 0 0") * 17), (2, None))
equal("all at fault: T", check(jobs("0 0 0 0")), (3, 0))
equal("C before k", check(jobs("0 1 0 0")), (4, 0))
equal("k before m", check(jobs("1 1 0 0")), (5, 0))
equal("lowest job", check(jobs("1 1 1 1, 1 1 2 1, 1 0 1 1")), (6, 1))

equal("model 2", admission([], 2), (15, None, 0, 0))
equal("list before 7", admission([], O), (1, None, 0, 0))
equal("fault before 7", admission(jobs("1 1 1 1, 2 1 1 1"), O), (4, 1, 0, 0))
equal("7", admission(jobs("1 2 1 1"), O), (7, None, 0, 0))
# 4,095 x 4,097 = 4,096 x 4,096 - 1 (4,097 = 17 x 241), and 97 x 257 x 673 = 16,777,217.
edge = "1 4095 1 1, 1 241 1 17"
equal("cycle 16,777,215", admission(jobs(edge), R), (0, None, 16_777_215, 4097 + 4095))
equal("cycle 16,777,217", admission(jobs("1 257 1 97, 1 673 1 1"), R), (8, None, 0, 0))
equal("8 before 9", admission(jobs("1 257 1 97, 673 673 1 1, 1 1 1 1"), R), (8, None, 0, 0))
equal("7 before 8", admission(jobs("1 257 1 97, 1 673 1 1"), O), (7, None, 0, 0))
equal("load = cycle", admission(jobs("4096 4096 255 255"), R), (0, None, 1_044_480, 1_044_480))

# --- Whole outputs worked by hand -----------------------------------------------

# Row 7 and row 8: numbers 0 and 0, and the slots are run.
prints(
    "D whole",
    "W O 8\n2 4 1 1\n1 2 2 4\n",
    "cycle 0 load 0 not judged",
    *["0 0", "1 0", "2 1", "3 -", "4 0", "5 0", "6 1", "7 -"],
    "given 6 idle 2 tagged 0 short 0",
)
prints(
    "cycle too long",
    "W R 3\n1 257 1 97\n1 673 1 1\n",
    "cycle 0 load 0 cycle too long",
    *["0 1", "1 0", "2 -"],
    "given 2 idle 1 tagged 0 short 0",
)
# Deadlines 5/2 and 7/3: equal when rounded down, but job 1 is first.
prints(
    "exact fractions",
    "V R 1\n1 1 2 5\n1 1 3 7\n",
    "cycle 35 load 29 admitted",
    "0 1",
    "given 1 idle 0 tagged 0 short 0",
)
# Job 1 gets nothing.  Slot 1: deadline 1 + 2/2 = 2, tagged.  Slot 2: 2 + 1/2, but it
# has its tag; the window ends short.  Slot 3 opens the next one, with no tag.
prints(
    "first tag once in a window",
    "W R 6\n1 1 1 1\n1 1 2 3\n",
    "cycle 3 load 5 over",
    *["0 0", "1 0 t1", "2 0 s1", "3 0", "4 0 t1", "5 0 s1"],
    "given 6 idle 0 tagged 2 short 2",
)
prints(
    "tags, then shorts",
    "V R 1\n1 1 1 1\n1 1 1 1\n1 1 1 1\n",
    "cycle 1 load 3 over",
    "0 0 t1 t2 s1 s2",
    "given 1 idle 0 tagged 2 short 2",
)
# Slot 2 is job 1's, which begins an instance and finishes none: deadline 0 + 6/2 = 3, so it
# is tagged, as the job chosen.  It loses what slot 2 gave, has its instance of period 2 after
# slot 4, and in slot 5 is not eligible but lacks one: deadline 3 + 3/1 = 6, tagged already.
prints(
    "original: tagged as the job chosen",
    "W O 6\n2 6 1 1\n2 3 2 2\n",
    "cycle 0 load 0 not judged",
    *["0 0", "1 0", "2 1 t1", "3 1", "4 1", "5 - s1"],
    "given 5 idle 1 tagged 1 short 1",
)
# The same jobs, relaxed: the slot is kept, so 5 serves the second instance.
prints(
    "relaxed: a begun instance is kept",
    "W R 6\n2 6 1 1\n2 3 2 2\n",
    "cycle 6 load 6 admitted",
    *["0 0", "1 0", "2 1 t1", "3 1", "4 1", "5 1"],
    "given 6 idle 0 tagged 1 short 0",
)
# In slots 1 and 3 the deadline is the next slot, 0 + 2/1 and 2 + 2/1, and the slot finishes
# the instance: not tagged.
for model, verdict in ("R", "cycle 2 load 2 admitted"), ("O", "cycle 0 load 0 not judged"):
    prints(
        "not tagged where it finishes",
        f"V {model} 4\n2 2 1 1\n",
        verdict,
        *["0 0", "1 0", "2 0", "3 0"],
        "given 4 idle 0 tagged 0 short 0",
    )
# A job never runs ahead of its periods: one slot in each of the first two.
prints(
    "relaxed: not ahead",
    "V R 6\n1 2 2 3\n",
    "cycle 6 load 2 admitted",
    *["0 0", "1 -", "2 0", "3 -", "4 -", "5 -"],
    "given 2 idle 4 tagged 0 short 0",
)

# --- Spare slots, worked by hand ------------------------------------------------

# Case A: job 0 has two instances where it needs one.  It is neither tagged in slot 3,
# where its window ends and job 1 is chosen, nor short: "m' stays 0 from there".
prints(
    "A whole, spare",
    "W R 6 S\n1 2 1 2\n1 3 2 2\n",
    "cycle 12 load 7 admitted",
    *["0 0", "1 1", "2 0", "3 1", "4 0", "5 -"],
    "given 5 idle 1 tagged 0 short 0",
)
# Job 0 has its m after slot 1 and job 1 after slot 6.  Original: what job 0 gets in slot 7,
# the last of its period 2, is lost; slots 8 and 9 finish an instance of period 3, so v = C.
prints(
    "original: spare slots",
    "W O 12 S\n2 4 1 3\n5 12 1 1\n",
    "cycle 0 load 0 not judged",
    *["0 0", "1 0", "2 1", "3 1", "4 1", "5 1", "6 1", "7 0", "8 0", "9 0", "10 -", "11 -"],
    "given 10 idle 2 tagged 0 short 0",
)
# Relaxed: slot 7 counts, so slot 10 ends the third instance.
spread = "2 4 1 3, 5 12 1 1"
equal("relaxed: spare slots", choices(spread, W, R, 12, True), "0 0 1 1 1 1 1 0 0 0 0 -")
# In slot 2 both have their m and one more due: windows end at 8 and 4, in either order
# "soonest window end first".  In slot 6 both end at 8, so the lower number.
for order in V, W:
    pair = "1 2 1 4, 1 2 1 2"
    equal("soonest window end", choices(pair, order, R, 8, True), "1 0 1 0 1 0 0 1")
    equal("soonest window end, off", choices(pair, order, R, 8), "1 0 - - 1 - - -")
# An eligible job comes first, however soon the other's window ends: job 1 in slot 1.
equal("eligible first", choices("1 1 1 2, 1 2 1 2", W, R, 4, True), "0 1 0 0")
# In slots 4 and 6 job 0 is chosen and job 1 is past its m, with 2 and 3 instances for 1: m'
# is 0 and no plain difference, so it has no virtual deadline and is not tagged.
prints(
    "not tagged past its m",
    "W O 8 S\n1 2 1 1\n1 2 1 4\n",
    "cycle 0 load 0 not judged",
    *["0 0", "1 1", "2 0", "3 1", "4 0", "5 1", "6 0", "7 1"],
    "given 8 idle 0 tagged 0 short 0",
)
# Job 1 loses what slot 2 gave, and is tagged there: deadline 0 + 6/2 = 3.  In slot 5 it has
# v = C and lacks one, so job 0 has the slot as spare; it begins an instance and finishes none,
# but has its m, so it is not tagged.
prints(
    "short in a spare slot",
    "W O 6 S\n2 3 1 2\n2 3 2 2\n",
    "cycle 0 load 0 not judged",
    *["0 0", "1 0", "2 1 t1", "3 1", "4 1", "5 0 s1"],
    "given 6 idle 0 tagged 1 short 1",
)

# --- Who falls below, worked by hand --------------------------------------------

# A: job 0 has slot 0 of 0-3, 4 of 4-7 and, like slot 0, the first of 8-11; job 1 has 1 and 3 of
# 0-5, and in 6-11 slot 6, since job 0 has its m, and 9.  B: slots 0 and 1 change places.  With
# spare on what they have is the same, and more.
NONE = "job 0 never below", "job 1 never below", "no job falls below"
falls("A below", "W R 6\n1 2 1 2\n1 3 2 2\n", "cycle 12 load 7 admitted", *NONE)
falls("A below, spare", "W R 6 S\n1 2 1 2\n1 3 2 2\n", "cycle 12 load 7 admitted", *NONE)
falls("B below", "V R 6\n1 2 1 2\n1 3 2 2\n", "cycle 12 load 7 admitted", *NONE)
# The runs of C to G are whole cycles.  C: job 0 has two slots of 0-3 and two of 4-7, job 1 has
# two.  D: job 1 finishes in slots 2 and 6.  E: job 0 has its two slots, job 1 has 0, 2 and 4.
falls("C below", "W R 8\n2 4 1 1\n1 2 2 4\n", "cycle 8 load 6 admitted", *NONE)
falls("D below", "W O 8\n2 4 1 1\n1 2 2 4\n", "cycle 0 load 0 not judged", *NONE)
falls("E below", "W R 6\n2 3 1 2\n1 2 1 1\n", "cycle 6 load 5 admitted", *NONE)
# "slot 1 tags job 1, whose window is short"; "job 1 short".  The slot count is not used.
ONE = "job 0 never below", "job 1 below in 1 of 1 windows a cycle, first in slot 1", "1 of 2 jobs fall below"
for slots in 1, 2, 4096:
    falls("F below", f"W R {slots}\n1 1 1 1\n1 2 1 1\n", "cycle 2 load 3 over", *ONE)
    falls("G below", f"W R {slots}\n1 2 1 1\n2 2 1 1\n", "cycle 2 load 3 over", *ONE)

# Admitted, and in order V job 1 falls below.  Deadlines: job 1's is 8 up to slot 7; job 0's is
# 16/5 in slots 0 and 1, 2 + 14/4 in 2 and 3, 4 + 12/3 = 8 in 4 and 5, where the lower number is
# first, then 6 + 10/2.  So job 1 has 6 and 7 and lacks a third.  From 8 on its deadline is 16;
# job 0's is 8 + 8/2 in 8 and 9 and 10 + 6/1 = 16 in 10 and 11, and then it has its m: job 1 has
# 12, 13 and 14.
TIGHT = "2 2 5 8\n3 4 1 2\n"
falls(
    "V falls",
    "V R 16\n" + TIGHT,
    "cycle 16 load 16 admitted",
    *["job 0 never below", "job 1 below in 1 of 2 windows a cycle, first in slot 7"],
    "1 of 2 jobs fall below",
)
falls("V falls, in W", "W R 16\n" + TIGHT, "cycle 16 load 16 admitted", *NONE)

# Original: job 0 has slots 0 and 2, in V too: deadlines 2 and 4, then 4 and 4.  Job 1 has 1 and
# 3, each a begun instance that its period's end throws away.  Relaxed it has its two slots.
for order in "VW":
    falls(
        "original falls",
        f"{order} O 4\n1 1 1 2\n2 2 1 2\n",
        "cycle 0 load 0 not judged",
        *["job 0 never below", "job 1 below in 1 of 1 windows a cycle, first in slot 3"],
        "1 of 2 jobs fall below",
    )
    falls("relaxed does not", f"{order} R 4\n1 1 1 2\n2 2 1 2\n", "cycle 4 load 4 admitted", *NONE)

# Order V at unit service, admitted.  The long job's deadline is 3 + 37/24 in slot 3,
# before 5, and past it in slot 4, which goes to the window of 5 slots; it is 8 + 32/20 in slot 8,
# before 10.  So slot 9 alone is left for the two windows that end with it, and the lower number has
# it.  So again slot 19, after 18 + 22/12.  Then the long job is ahead: its deadlines are past 25 in
# slot 23, past 30 in 28 and past 35 in 32, and slots 34 to 39 are left for the last three units.
# T = 1, so the two models are one.  In W none falls below.
for three in permutations(("1 1 27 40", "1 1 1 10", "1 1 1 5")):
    some = jobs(", ".join(three))
    late = max(three.index("1 1 1 10"), three.index("1 1 1 5"))
    many = [40 // k for C, T, m, k in some]
    for model, spare in product((R, O), (False, True)):
        expected = [(many[i], 2, 9) if i == late else (many[i], 0, None) for i in range(3)]
        equal(f"V, slot 9: {three}", below.shortfalls(some, V, model, spare), (0, expected))
        expected = [(windows, 0, None) for windows in many]
        equal(f"W, never: {three}", below.shortfalls(some, W, model, spare), (0, expected))

# Job 0 has each slot, so each window of the others is short, the first as it ends.
falls(
    "two of three",
    "W R 1\n1 1 1 1\n1 1 1 2\n1 1 1 3\n",
    "cycle 6 load 11 over",
    *["job 0 never below", "job 1 below in 3 of 3 windows a cycle, first in slot 1"],
    *["job 2 below in 2 of 2 windows a cycle, first in slot 2", "2 of 3 jobs fall below"],
)

# Above the limit, 16,777,217, nothing is run, in either model; the rows before it come first.
LONG = "1 257 1 97\n1 673 1 1\n"
falls("8, relaxed", "V R 5\n" + LONG, "cycle 0 load 0 cycle too long", "not judged")
falls("8, original", "W O 5 S\n" + LONG, "cycle 0 load 0 not judged", "not judged")
for model in R, O:
    equal("row 8", below.shortfalls(jobs("1 257 1 97, 1 673 1 1"), V, model, False), (8, []))
    equal("15 before 1", below.shortfalls([], 2, model, False), (15, []))
    equal("6 before 8", below.shortfalls(jobs("1 257 1 97, 1 673 2 1"), V, model, False), (6, []))
equal("15, model", below.shortfalls([], V, 2, False), (15, []))

# --- Refused sheets, the row and the place worked out by hand -------------------

JOBS = "1 2 1 2\n"  # 8 bytes; behind "V R 6\n" it stands at 6 to 13
for sheet, refusal in (
    # The first line: letter 0, space 1, letter 2, space 3, the slot count from 4.
    ("", "13 at 0"),  # ends too soon
    ("V", "13 at 1"),
    ("V ", "13 at 2"),
    ("V R", "13 at 3"),
    ("V R ", "13 at 4"),
    ("V R 6", "13 at 5"),
    ("\n", "13 at 0"),
    ("\nV R 6\n", "13 at 0"),
    (" V R 6\n", "13 at 0"),
    ("v R 6\n", "13 at 0"),
    ("R V 6\n", "13 at 0"),
    ("VR 6\n", "13 at 1"),
    ("V\tR 6\n", "13 at 1"),
    ("V  R 6\n", "13 at 2"),
    ("V W 6\n", "13 at 2"),
    ("V R6\n", "13 at 3"),
    ("V R  6\n", "13 at 4"),
    ("V R -6\n", "13 at 4"),
    ("V R \n", "13 at 4"),
    ("V R 06\n" + JOBS, "13 at 5"),  # after 0 no digit
    ("V R 00\n", "13 at 5"),
    ("V R 6 \n", "13 at 6"),  # after the space only S
    ("V R 6\r\n" + JOBS, "13 at 5"),
    ("V R 6.\n", "13 at 5"),
    ("V R 123456\n", "13 at 9"),  # the sixth digit
    ("V R 6\x00\n", "13 at 5"),
    # "an optional S after the slot count": space 5, S 6, line feed 7.
    ("W R 6 ", "13 at 6"),  # ends too soon
    ("W R 6 S", "13 at 7"),
    ("W R 6 T", "13 at 6"),
    ("W R 6 s\n", "13 at 6"),
    ("W R 6 0\n", "13 at 6"),
    ("W R 6S", "13 at 5"),
    ("W R 6  S\n", "13 at 6"),
    ("W R 6 S \n", "13 at 7"),
    ("W R 6 SS\n", "13 at 7"),
    ("W R 6 S S\n", "13 at 7"),
    ("W R S\n", "13 at 4"),
    ("W R 12345 S", "13 at 11"),
    ("W R 6 S\n1 2 1 2 S\n", "13 at 15"),  # in the first line alone
    ("W R 0 S\n", "16"),
    ("W R 6 S\n", "1"),
    # A job line: from 6.
    ("V R 6\n\n", "13 at 6"),
    ("V R 6\n\n" + JOBS, "13 at 6"),
    ("V R 6\n 1 2 1 2\n", "13 at 6"),
    ("V R 6\nV R 6\n", "13 at 6"),
    ("V R 6\n\xff", "13 at 6"),
    ("V R 6\n1", "13 at 7"),
    ("V R 6\n1 2 1", "13 at 11"),
    ("V R 6\n1 2 1 ", "13 at 12"),
    ("V R 6\n1 2 1 2", "13 at 13"),
    ("V R 6\n1  2 1 2\n", "13 at 8"),
    ("V R 6\n1 -2 1 2\n", "13 at 8"),
    ("V R 6\n1 02 1 2\n", "13 at 9"),
    ("V R 6\n1 2 1\n", "13 at 11"),
    ("V R 6\n1 2 1 \n", "13 at 12"),
    ("V R 6\n1 2 1 2 \n", "13 at 13"),
    ("V R 6\n1 2 1 2 3\n", "13 at 13"),
    ("V R 6\n1 2 1 2\r\n", "13 at 13"),
    ("V R 6\n1 2 1 123456\n", "13 at 17"),
    ("V R 6\n123456 2 1 2\n", "13 at 11"),
    ("V R 6\n" + JOBS + "\n", "13 at 14"),
    ("V R 6\n" + JOBS + "1 2 x", "13 at 18"),
    # The rows that come after, in their order.
    ("V R 0\n1 x", "13 at 8"),  # 13 before 16
    ("V R 0\n", "16"),  # 16 before 1
    ("V R 4097\n0 0 0 0\n", "16"),  # 16 before 3
    ("V R 99999\n" + JOBS, "16"),
    ("V R 0\n" + JOBS * 17, "16"),  # 16 before 2
    ("W O 6\n", "1"),
    ("V R 6\n" + JOBS * 17, "2"),
    ("V R 6\n" + "0 0 0 0\n" * 40, "2"),  # 2 before 3
    ("V R 6\n" + JOBS + "0 99999 1 2\n", "3 job 1"),
    ("V R 6\n1 0 1 2\n", "3 job 0"),
    ("V R 6\n" + JOBS * 15 + "3 2 1 2\n", "4 job 15"),
    ("V O 6\n1 2 1 256\n0 0 0 0\n", "5 job 0"),
    ("V R 6\n1 2 3 2\n", "6 job 0"),
    # Lengths: 6 + 511 x 8 = 4,094 bytes, and the last two or three.
    ("V R 6\n" + JOBS * 511, "2"),
    ("V R 10\n" + JOBS * 510 + "10 2 1 2\n", "2"),  # 7 + 4,080 + 9 = 4,096
    ("V R 6\n" + JOBS * 511 + "1 ", "13 at 4096"),  # 4,096 bytes that break off
    ("V R 6\n" + JOBS * 511 + "11", "13 at 4096"),
    ("V R 6\n" + JOBS * 511 + "1\n", "13 at 4095"),
    ("V R 6\n" + JOBS * 511 + "1 2", "17"),  # 4,097 bytes
    ("V R 6\n" + JOBS * 512, "17"),
    ("x" * 4096, "13 at 0"),
    ("x" * 4097, "17"),  # 17 before 13
    ("V R " + "1" * 4092, "13 at 9"),
    ("V R 0\n" * 1000, "17"),
):
    for output_of in output, below.output:
        prints(f"sheet {sheet[:40]!r} ({len(sheet)})", sheet, "refused " + refusal, output=output_of)

# As many jobs and as many slots as are allowed.
prints(
    "16 jobs",
    "V R 1\n" + "1 4096 1 255\n" * 16,
    "cycle 1044480 load 16 admitted",
    "0 0",
    "given 1 idle 0 tagged 0 short 0",
)
equal("4,096 slots", output(b"V O 4096\n1 4096 255 255\n").count(b"\n"), 4098)

# --- The generator --------------------------------------------------------------

found = sheets.job_bytes(jobs("1 2 3 4, 4096 258 254 255"))
equal("job bytes", list(found), [1, 0, 2, 0, 3, 4, 0, 16, 2, 1, 254, 255])
equal("same seed", sheets.sheet(sheets.draw(3, 4)), sheets.sheet(sheets.draw(3, 4)))


def kinds(draw_sheet, output, count):
    drawn = (draw_sheet(sheets.draw("kinds", number)) for number in range(count))
    return {sheets.kind(sheet, output(sheet)) for sheet in drawn}


refused = {f"refused {row}" for row in (1, 2, 3, 4, 5, 6, 13, 16, 17)}
expected = {"admitted", "over", "cycle too long", "not judged"}
equal("kinds", kinds(sheets.sheet, output, 600), expected | refused)
# In V an admitted list may have jobs that fall below, in W none has; over, some job does.
expected = {"admitted: none", "over: some", "over: all", "cycle too long: not run"}
expected |= {"not judged: " + who for who in ("none", "some", "all", "not run")}
expected = {f"{order} {told}" for order in "VW" for told in expected} | {"V admitted: some"}
equal("kinds of below", kinds(sheets.below_sheet, below.output, 400), expected | refused)

# A job takes spare slots only where it is not eligible, and is not until its window ends:
# a run with spare on is the run with spare off, save for what was idle there.
taken = 0
for number in range(300):
    rng = sheets.draw("spare", number)
    some, order, model = sheets.any_jobs(rng), rng.choice((V, W)), rng.choice((R, O))
    if check(some)[0] == 0:
        off, on = (run(some, order, model, 60, spare) for spare in (False, True))
        kept = [
            (None if before[0] is None else after[0], *after[1:]) for before, after in zip(off, on)
        ]
        equal(f"off within on {some}", kept, off)
        taken += off != on
equal("lists that took spare slots", taken > 50, True)

# "a window that ends untagged is not short, in both models and orders, spare on or off,
# counted from its opening": each short window was told among the first tags since it opened.
windows = 0
for number in range(300):
    rng = sheets.draw("untagged", number)
    some, order, model = sheets.any_jobs(rng), rng.choice((V, W)), rng.choice((R, O))
    if check(some)[0] == 0:
        answers = run(some, order, model, 60, rng.choice((False, True)))
        for slot, (_, _, shorts) in enumerate(answers):
            for job in shorts:
                _, T, _, k = some[job]
                since = answers[slot + 1 - k * T : slot + 1]
                equal(f"tagged {some}", sum(tags.count(job) for _, tags, _ in since), 1)
                windows += 1
equal("short windows", windows > 500, True)

# "the promise of no short window is for W": tried on the admitted lists of many.
for number in range(400):
    some = sheets.any_jobs(sheets.draw("promise", number))
    row, _, cycle, _ = admission(some, RELAXED)
    if row == 0:
        for spare in False, True:  # "Demand 3 holds with it on or off."
            answers = run(some, ORDER_W, RELAXED, min(cycle + 1, 150), spare)
            equal(f"no short window {some}", [shorts for _, _, shorts in answers if shorts], [])

# The run repeats: in five cycles and more nothing new happens, and `below` has told it.
fell = 0
for number in range(240):
    rng = sheets.draw("cycles", number)
    some = sheets.below_jobs(rng, most=48)
    row, _, cycle, _ = admission(some, R)
    if row not in (0, 9):
        continue
    for order, model in product((V, W), (R, O)):
        spare = rng.choice((False, True))
        name = f"order {order}, model {model}, spare {spare}: {some}"
        answers = run(some, order, model, 5 * cycle + rng.randrange(cycle), spare)
        shorts = [shorts for _, _, shorts in answers]
        equal(f"a cycle later, {name}", shorts[cycle:], shorts[:-cycle])
        found = below.shortfalls(some, order, model, spare)[1]
        for job, it in enumerate(found):
            slots = [slot for slot, who in enumerate(shorts) if job in who]
            equal(f"first, {name}", it.first, min(slots, default=None))
            many = [sum(slot < cycles * cycle for slot in slots) for cycles in range(1, 6)]
            equal(f"short windows, {name}", many, [it.short * cycles for cycles in range(1, 6)])
            equal(f"windows, {name}", it.windows * some[job].k * some[job].T, cycle)
        # Spare slots go to jobs that have their m, and take nothing from another.
        equal(f"the other spare, {name}", below.shortfalls(some, order, model, not spare)[1], found)
        falling = any(it.short for it in found)
        fell += falling
        # "Admitted means load <= H"; "the promise of no short window is for W".
        if model == R and (row == 9 or order == W):
            equal(f"admitted or over, {name}", falling, row == 9)
equal("runs with jobs below", fell > 300, True)

print(f"test_second: {done - failed} of {done} passed")
sys.exit(1 if failed else 0)
