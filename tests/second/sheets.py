"""Random job lists and random sheets for the comparisons, sound and damaged.

Everything is drawn from a random.Random handed in, so a seed and a number name a
sheet for good: `sheet(draw(seed, number))`.  The job lists also serve comparisons
that have no sheet: `encodable_jobs` and `job_bytes` give the bytes of the C entry.
"""

import random
import struct
from functools import cache, partial

from slots import MOST_BYTES, MOST_CYCLE, MOST_K, MOST_SLOTS, MOST_T, Job, asked, check, cycle_of


def draw(seed, number):
    """The source of one sheet or list, by seed and number."""
    return random.Random(f"{seed} {number}")


def pick(rng, *weighted):
    """One of the things handed over as (weight, thing)."""
    weights, things = zip(*weighted)
    return rng.choices(things, weights)[0]


# --- Job lists ------------------------------------------------------------------


def job_within(rng, most_T, most_k):
    """An allowed job with T and k at most as stated; C and m are often at an end."""
    T, k = rng.randint(1, most_T), rng.randint(1, most_k)
    return Job(one_to(rng, T), T, one_to(rng, k), k)


def one_to(rng, most):
    return min(most, pick(rng, (3, 1), (1, most), (1, max(1, most - 1)), (5, rng.randint(1, most))))


def small_jobs(rng):
    """Windows short enough to end within a few slots."""
    most_T, most_k = rng.choice(((1, 4), (2, 2), (3, 3), (4, 1), (6, 4), (8, 2), (12, 1)))
    return [job_within(rng, most_T, most_k) for _ in range(rng.choice((1, 2, 2, 3, 3, 4, 5, 8)))]


def light_jobs(rng):
    """Small windows and little to do, so that many of these lists are admitted."""
    jobs = []
    for _ in range(rng.randint(1, 6)):
        T, k = rng.choice((2, 3, 4, 5, 6, 8, 10, 12)), rng.randint(1, 4)
        jobs.append(Job(rng.choice((1, 1, 1, 2)), T, rng.randint(1, k), k))
    return jobs


def roomy_jobs(rng):
    """Few instances needed of those that come due: spare slots find a job that waits."""
    jobs = []
    for _ in range(rng.randint(1, 5)):
        T, k = rng.randint(1, 8), rng.randint(2, 6)
        jobs.append(Job(rng.randint(1, min(T, 3)), T, rng.choice((1, 1, 2)), k))
    return jobs


@cache
def windows(cycle):
    """All (k, T) within the limits whose window divides the cycle."""
    ks = [k for k in range(1, MOST_K + 1) if cycle % k == 0]
    return [(k, T) for k in ks for T in range(1, MOST_T + 1) if cycle % (k * T) == 0]


def full_jobs(rng):
    """A load equal to its cycle, if 15 jobs reach it; or a little above or below."""
    cycle = rng.choice((1, 2, 3, 4, 6, 8, 12, 24, 36, 60, 720, 4096, 25_500, 1_044_480))
    jobs, left = [], cycle
    while left and len(jobs) < 15:
        k, T = rng.choice(windows(cycle))
        room = left * k * T // cycle  # the m times C that still fit into this window
        if room:
            m = rng.randint(1, min(k, room))
            C = min(T, room // m)
            C = rng.choice((C, rng.randint(1, C)))
            jobs.append(Job(C, T, m, k))
            left -= m * C * (cycle // (k * T))
    closing = [(k, T) for k, T in windows(cycle) if k * T == cycle and T >= left]
    if left and closing:
        k, T = rng.choice(closing)
        jobs.append(Job(left, T, 1, k))
    rng.shuffle(jobs)
    extra = rng.randrange(5)
    if extra == 0:
        k, T = rng.choice(windows(cycle))
        jobs.append(Job(1, T, 1, k))
    elif extra == 1:
        jobs.append(Job(1, 100, 1, 255))
    elif extra == 2 and len(jobs) > 1:
        jobs.pop()
    return jobs


def limit_jobs(rng):
    """Numbers at the ends of what is allowed."""
    jobs = []
    for _ in range(pick(rng, (6, rng.randint(1, 4)), (1, 15), (3, 16))):
        T = rng.choice((1, 2, 255, 256, 4095, MOST_T, MOST_T))
        k = rng.choice((1, 2, 254, MOST_K, MOST_K))
        jobs.append(Job(one_to(rng, T), T, one_to(rng, k), k))
    return jobs


def wide_jobs(rng):
    """Any allowed numbers: the cycle soon passes 32 bits, then 64."""
    return [job_within(rng, MOST_T, MOST_K) for _ in range(rng.randint(1, 16))]


@cache
def prime_powers(number):
    """The greatest prime powers that divide a number."""
    parts, prime = [], 2
    while number > 1:
        if prime * prime > number:
            prime = number
        part = 1
        while number % prime == 0:
            number, part = number // prime, part * prime
        if part > 1:
            parts.append(part)
        prime += 1
    return parts


def edge_jobs(rng):
    """A cycle within a few hundred of its limit, on either side, or a multiple of it."""
    near = (MOST_CYCLE - 1, MOST_CYCLE + 1)  # 4,095 x 4,097 and 97 x 257 x 673
    cycle = rng.choice(near)
    if rng.random() < 0.5:
        cycle = MOST_CYCLE + rng.randint(-400, 400)
        if max(prime_powers(cycle)) > MOST_T:
            cycle = rng.choice(near)
    parts, pairs = list(prime_powers(cycle)), []
    rng.shuffle(parts)
    for part in parts:
        k, T = pairs.pop() if pairs and rng.random() < 0.7 else (1, 1)
        if k * part <= MOST_K and rng.random() < 0.5:
            pairs.append((k * part, T))
        elif T * part <= MOST_T:
            pairs.append((k, T * part))
        else:
            pairs += [(k, T), (1, part)]
    if rng.random() < 0.2:
        pairs.append((rng.randint(1, 3), rng.randint(1, 8)))
    rng.shuffle(pairs)
    heavy = rng.random() < 0.3
    return [Job(one_to(rng, T) if heavy else 1, T, one_to(rng, k) if heavy else 1, k) for k, T in pairs]


def wrapped_jobs(rng):
    """A cycle above 32 bits whose low 32 bits alone would be within the limit."""
    while True:
        jobs = [Job(1, MOST_T, 1, 128)]
        while cycle_of(jobs) < 1 << 32:
            jobs.append(Job(1, rng.randrange(1, MOST_T, 2), 1, rng.randrange(1, MOST_K, 2)))
        if cycle_of(jobs) % (1 << 32) <= MOST_CYCLE:
            return jobs


def faulty_jobs(rng):
    """One to three numbers past what is allowed, often in the same job."""
    jobs = rng.choice((small_jobs, light_jobs, limit_jobs))(rng)
    at = rng.randrange(len(jobs))
    for _ in range(rng.choice((1, 1, 1, 2, 3))):
        job = jobs[at]
        # 256, 257, 65,536 and 65,537 are 0 and 1 again when cut to 8 or 16 bits.
        past = {
            "T": (4097, 4097, 4098, 8192, 65_535, 65_536, 65_537, 99_999),
            "C": (job.T + 1, job.T + 1, 4097, 65_536, 65_537, 99_999),
            "k": (256, 256, 257, 511, 65_536, 65_537, 99_999),
            "m": (job.k + 1, job.k + 1, 256, 257, 65_537, 99_999),
        }
        name = rng.choice("TCkm")
        jobs[at] = job._replace(**{name: rng.choice((0, *past[name]))})
        if rng.random() < 0.3:
            at = rng.randrange(len(jobs))
    return jobs


def many_jobs(rng):
    """No job, and numbers of jobs around and past 16."""
    count = rng.choice((0, 0, 1, 14, 15, 16, 16, 16, 17, 17, 18, 32, 33, rng.randint(0, 40)))
    jobs = [job_within(rng, 8, 3) for _ in range(count)]
    if jobs and rng.random() < 0.2:
        jobs[rng.randrange(count)] = Job(0, 0, 0, 0)
    return jobs


def any_jobs(rng):
    """A job list of any of these kinds."""
    kind = pick(
        rng,
        (30, small_jobs),
        (16, light_jobs),
        (20, roomy_jobs),
        (14, full_jobs),
        (6, limit_jobs),
        (6, wide_jobs),
        (8, edge_jobs),
        (2, wrapped_jobs),
        (16, faulty_jobs),
        (10, many_jobs),
    )
    return kind(rng)


# Most slots of a cycle that the second program is asked to run.
MOST_RUN = 20_000


def cycle_jobs(rng):
    """1 to 16 jobs with a cycle of at most MOST_RUN slots, and a load on either side of it."""
    cycle = pick(
        rng,
        (12, rng.choice((6, 12, 20, 24, 30, 36, 40, 48, 60))),
        (8, rng.choice((72, 90, 96, 120, 168, 180, 210, 240, 360))),
        (4, rng.choice((420, 504, 720, 840, 1260, 1680))),
        (1, rng.choice((2310, 4096, 5040, 7560))),
        (0.2, rng.choice((10_080, 16_384, 18_480, MOST_RUN))),
    )
    count = rng.choice((1, 2, 2, 3, 3, 4, 4, 5, 6, 8, 10, 13, 15, 16))
    load = rng.choice((0.7, 0.9, 0.95, 1, 1, 1.05, 1.1, 1.2, 1.3, 1.6, 2))
    longer = [(k, T) for k, T in windows(cycle) if k * T >= min(count, cycle)]
    jobs = []
    for _ in range(count):
        k, T = rng.choice(longer)
        units = max(1, round(load * k * T * rng.uniform(0.4, 1.6) / count))
        m = rng.randint(1, min(k, units))
        jobs.append(Job(min(T, max(1, units // m)), T, m, k))
    return jobs


def urgent_jobs(rng):
    """Admitted, and in order V a job with many instances to come often leaves others short."""
    cycle = rng.choice((12, 16, 20, 24, 30, 36, 40, 48, 60, 72, 96, 120, 240))
    left, jobs = cycle - rng.randint(0, 2), []
    for _ in range(rng.randint(2, 5)):
        window = rng.choice([some for some in range(3, cycle) if cycle % some == 0])
        C = rng.randint(1, 3)
        if C * cycle // window < left:
            jobs.append(Job(C, window, 1, 1))
            left -= C * cycle // window
    T = rng.choice([T for T in (1, 2, 3) if cycle % T == 0 and left >= T])
    jobs.append(Job(T, T, left // T, cycle // T))
    rng.shuffle(jobs)
    return jobs


def in_reach(jobs, most=MOST_RUN):
    """Whether the second program can soon tell who falls below: few slots, or none at all."""
    return check(jobs)[0] != 0 or not most < cycle_of(jobs) <= MOST_CYCLE


def below_jobs(rng, most=MOST_RUN):
    """A job list of any kind that is in reach; most have a cycle that is run."""
    while True:
        jobs = pick(rng, (10, cycle_jobs), (5, urgent_jobs), (9, any_jobs))(rng)
        if in_reach(jobs, most):
            return jobs


def encodable_jobs(rng, some_jobs=any_jobs):
    """One of these job lists whose numbers fit into the bytes of the C entry."""
    while True:
        jobs = some_jobs(rng)
        if all(max(C, T) < 1 << 16 and max(m, k) < 1 << 8 for C, T, m, k in jobs):
            return jobs


def job_bytes(jobs):
    """ "job bytes, 6 a job: C and T (16 bits, low byte first), m, k" """
    return b"".join(struct.pack("<HHBB", *job) for job in jobs)


# --- Sheets ---------------------------------------------------------------------


def slot_count(rng, jobs):
    """Mostly few slots, so that it is quick; sometimes the ends of what is allowed."""
    longest = max((job.k * job.T for job in jobs), default=1)
    return pick(
        rng,
        (40, rng.randint(1, 30)),
        (40, min(120, longest * rng.randint(1, 4) + rng.randint(0, 2))),
        (4, 1),
        (2, 0),
        (1, rng.randint(121, MOST_SLOTS)),
        (1, rng.choice((MOST_SLOTS - 1, MOST_SLOTS))),
        (2, MOST_SLOTS + 1),
        (1, rng.choice((9999, 10_000, 65_536, 65_537, 99_999))),
    )


def line(*words):
    return " ".join(map(str, words)).encode("ascii") + b"\n"


def first_line(order, model, slots, spare):
    """ "an optional S after the slot count" """
    return line(order, model, slots, *("S" if spare else ""))


def written(order, model, slots, spare, jobs):
    """The sheet with these letters, slot count and jobs."""
    return first_line(order, model, slots, spare) + b"".join(line(*job) for job in jobs)


def formed(rng, some_jobs=any_jobs):
    """A sheet of the stated form with one of these lists; its numbers may be refused."""
    jobs = some_jobs(rng)
    order, model, slots = rng.choice("VW"), rng.choice("RO"), slot_count(rng, jobs)
    return written(order, model, slots, rng.random() < 0.5, jobs)


TELLING = b"VWROS  0123456789\n\n\r\t\x00\x0b\x0c-+.,#vwros_\x80\xff"


def odd_byte(rng):
    """A byte that may stand in a sheet, or looks as if it might, or any other."""
    return bytes([rng.choice(TELLING) if rng.random() < 0.8 else rng.randrange(256)])


def places(sheet, wanted):
    """Where any of the wanted bytes stand; 0 if nowhere."""
    return [at for at, byte in enumerate(sheet) if byte in wanted] or [0]


def flip(rng, sheet):
    at = rng.randrange(len(sheet) + 1)
    new = bytes([sheet[at] ^ 1 << rng.randrange(8)]) if sheet[at:] else odd_byte(rng)
    return sheet[:at] + new + sheet[at + 1 :]


def overwrite(rng, sheet):
    at = rng.randrange(len(sheet) + 1)
    return sheet[:at] + odd_byte(rng) + sheet[at + 1 :]


def insert(rng, sheet):
    at = rng.randrange(len(sheet) + 1)
    return sheet[:at] + odd_byte(rng) + sheet[at:]


def drop(rng, sheet):
    at = rng.randrange(len(sheet) + 1)
    return sheet[:at] + sheet[at + 1 :]


def cut(rng, sheet):
    return sheet[: rng.randrange(len(sheet) + 1)]


def behead(rng, sheet):
    return sheet[rng.randrange(min(len(sheet), 8) + 1) :]


def double_space(rng, sheet):
    at = rng.choice(places(sheet, b" "))
    return sheet[:at] + b" " + sheet[at:]


def space_for_feed(rng, sheet):
    at = rng.choice(places(sheet, b"\n"))
    return sheet[:at] + rng.choice((b" \n", b" ", b"")) + sheet[at + 1 :]


def leading_zero(rng, sheet):
    at = rng.choice(places(sheet, b"0123456789"))
    return sheet[:at] + b"0" + sheet[at:]


def many_digits(rng, sheet):
    """Four to eight digits where one stood: the sixth in a row is too many."""
    at = rng.choice(places(sheet, b"0123456789"))
    digits = "".join(rng.choices("0123456789", k=rng.randint(4, 8)))
    return sheet[:at] + digits.encode("ascii") + sheet[at + 1 :]


def spoil_spare(rng, sheet):
    """Another text where the S may stand; the sheet may end with it."""
    first, feed, jobs = sheet.partition(b"\n")
    end = rng.choice((b"", b" ", b" S", b"S", b" s", b" T", b"  S", b" S ", b" SS", b" S S", b" 0"))
    return first.removesuffix(b" S") + end + rng.choice((b"", feed + jobs, feed + jobs))


def no_last_feed(rng, sheet):
    return sheet[:-1]


def carriage_returns(rng, sheet):
    return sheet.replace(b"\n", b"\r\n", rng.choice((1, -1)))


def empty_line(rng, sheet):
    at = rng.choice(places(sheet, b"\n") + [len(sheet)])
    return sheet[:at] + b"\n" + sheet[at:]


def spoil_words(rng, sheet):
    """A word left out, doubled or changed for another, in some line."""
    lines = sheet.split(b"\n")
    at = rng.randrange(len(lines))
    words = lines[at].split(b" ")
    word = rng.randrange(len(words))
    words[word : word + 1] = rng.choice(([], [words[word]] * 2, [rng.choice(words)], [b""]))
    lines[at] = b" ".join(words)
    return b"\n".join(lines)


def swap_lines(rng, sheet):
    lines = sheet.splitlines(keepends=True)
    rng.shuffle(lines)
    return b"".join(lines)


DAMAGES = (
    flip,
    overwrite,
    insert,
    drop,
    cut,
    behead,
    double_space,
    space_for_feed,
    leading_zero,
    many_digits,
    spoil_spare,
    no_last_feed,
    carriage_returns,
    empty_line,
    spoil_words,
    swap_lines,
)


def damaged(rng, some_jobs=any_jobs):
    """A sheet with one or more pieces of damage; some are of the form again."""
    sheet = formed(rng, some_jobs)
    for _ in range(rng.choice((1, 1, 1, 1, 2, 3))):
        sheet = rng.choice(DAMAGES)(rng, sheet)
    return sheet


def bare(rng):
    """Next to nothing: no byte, a first line alone, a few bytes of any kind."""
    order, model, slots = rng.choice("VWX"), rng.choice("ROX"), slot_count(rng, [])
    first = first_line(order, model, slots, rng.random() < 0.5)
    odd = b"".join(odd_byte(rng) for _ in range(rng.randint(0, 12)))
    return rng.choice((b"", b"\n", first, first, first[:-1], first + odd, odd))


def long(rng):
    """Around 4,096 bytes: whole lines of exactly that length, cut off there, or damaged."""
    size = MOST_BYTES + pick(
        rng,
        (4, -1),
        (8, 0),
        (8, 1),
        (2, 2),
        (2, rng.randint(-40, 40)),
        (1, rng.randint(2, 5000)),
        (0.3, 100_000),
    )
    slots = rng.choice((0, 7, 40, 4096, 4097))
    sheet = first_line(rng.choice("VW"), rng.choice("RO"), slots, rng.random() < 0.5)
    while size - len(sheet) >= 40:
        sheet += line(*job_within(rng, rng.choice((9, 4096)), rng.choice((9, 255))))
    # Such a line has at most 18 bytes, so 22 to 39 are left: one or two lines fill them.
    left = size - len(sheet)
    for part in (left,) if left <= 24 else (left // 2, left - left // 2):
        digits = [1, 1, 1, 1]
        while sum(digits) + 4 < part:
            digits[rng.choice([i for i in range(4) if digits[i] < 5])] += 1
        sheet += line(*("1" * count for count in digits))
    kind = rng.randrange(6)
    if kind == 0:
        sheet += line(1, 1, 1, 1)
        sheet = sheet[:size]
    elif kind == 1:
        sheet = rng.choice((sheet[:-1] + odd_byte(rng), odd_byte(rng) + sheet[1:]))
    elif kind == 2:
        sheet = rng.choice(DAMAGES)(rng, sheet)
    elif kind == 3:
        sheet = (sheet[1:] + sheet)[:size]
    elif kind == 4:
        keep = rng.randint(1, 40)
        sheet = sheet[:keep] + rng.choice((b"1", b" ", b"\n", b"0")) * (size - keep)
    return sheet


def sheet(rng):
    """A sheet of any of these kinds."""
    return pick(rng, (50, formed), (38, damaged), (4, bare), (8, long))(rng)


def below_sheet(rng):
    """A sheet for `below`: fewer are damaged, and what is left of a list is in reach."""
    whole, spoilt = partial(formed, some_jobs=below_jobs), partial(damaged, some_jobs=below_jobs)
    while True:
        sheet = pick(rng, (70, whole), (24, spoilt), (2, bare), (4, long))(rng)
        refusal, it = asked(sheet)
        if refusal or in_reach(it.jobs):
            return sheet


# --- What is drawn --------------------------------------------------------------


def kind(sheet, printed):
    """The row of a refusal; else the verdict and, of `below`, the order and who falls below."""
    lines = printed.decode("ascii").splitlines()
    first, last = lines[0].split(), lines[-1].split()
    if first[0] == "refused":
        return " ".join(first[:2])
    verdict = " ".join(first[4:])
    return verdict if last[0] == "given" else f"{sheet[:1].decode()} {verdict}: {fallen(last)}"


def fallen(last):
    """Which jobs fall below, by the words of the last line of `below`."""
    if last[1] != "of":
        return "none" if last[0] == "no" else "not run"
    return "all" if last[0] == last[2] else "some"
