#!/usr/bin/env python3
"""One second of the board, from Python: as examples/c/admit_and_fill.c, which prints the same lines.

    python3 examples/python/admit_and_fill.py target/libfilbertoss.so

README.md says how the shared library is made. Slots are 250 microseconds, so a second has 4,000.
"""
import ctypes
import struct
import sys
from pathlib import Path

# As in include/filbertoss.h.
ORDER_W = 1
RELAXED = 0
SPARE_OFF = 0
IDLE = 255
BELOW_BYTES = 12
NEVER = 4294967295

SLOTS, SHOWN = 4000, 40

# C T m k: slots for a turn, slots in a period, and how many turns in how many periods.
BOARD = {"gyro": (1, 4, 1, 1), "rows": (3, 10, 4, 5), "preview": (8, 40, 1, 2), "log": (5, 100, 3, 4)}
BINNED = [(1, 3, 1, 1), (2, 14, 3, 4), (3, 21, 1, 1), (1, 28, 1, 2)]


def load(path):
    """The shared library, its three functions typed as the header declares them."""
    library = ctypes.CDLL(str(Path(path).resolve()))
    u32, size = ctypes.c_uint32, ctypes.c_size_t
    jobs, buf = (ctypes.c_char_p, size), (ctypes.POINTER(ctypes.c_uint8), size)
    library.filbertoss_admit.argtypes = [*jobs, u32]
    library.filbertoss_fill.argtypes = [*jobs, u32, u32, *buf, size, size]
    library.filbertoss_below.argtypes = [*jobs, u32, u32, u32, *buf]
    for function in library.filbertoss_admit, library.filbertoss_fill, library.filbertoss_below:
        function.restype = u32
    return library


def job_bytes(jobs):
    """Six bytes a job: C and T low byte first, then m and k; a number that does not fit is an error."""
    return b"".join(struct.pack("<HHBB", *job) for job in jobs)


def choices(library, jobs, slots):
    """The first slots of a run in window order: a job or IDLE each."""
    packed, buf = job_bytes(jobs), (ctypes.c_uint8 * slots)()
    refusal = library.filbertoss_fill(packed, len(packed), ORDER_W, RELAXED, buf, slots, 0, slots)
    if refusal:
        sys.exit(f"no timetable: refusal {refusal}")
    return bytes(buf)


def short_windows(library, jobs):
    """For each job: windows a cycle, those that end short, and the first slot in which one does."""
    packed, size = job_bytes(jobs), len(jobs) * BELOW_BYTES
    buf = (ctypes.c_uint8 * size)()
    refusal = library.filbertoss_below(packed, len(packed), ORDER_W, RELAXED, SPARE_OFF, buf, size)
    if refusal:
        sys.exit(f"no answer: refusal {refusal}")
    return list(struct.iter_unpack("<III", bytes(buf)))


def main():
    if len(sys.argv) != 2:
        sys.exit("usage: admit_and_fill.py LIBRARY")
    library = load(sys.argv[1])
    board = job_bytes(BOARD.values())
    refusal = library.filbertoss_admit(board, len(board), RELAXED)
    print(f"not admitted: refusal {refusal}" if refusal else "admitted")

    run = choices(library, BOARD.values(), SLOTS)
    for number, name in enumerate(BOARD):
        print(f"job {number} {name:7} {run.count(number):4} slots")
    print(f"idle          {run.count(IDLE):4} slots")
    print(f"first {SHOWN}:", *("-" if job == IDLE else job for job in run[:SHOWN]))

    print("binned")
    for number, (windows, short, first) in enumerate(short_windows(library, BINNED)):
        when = "never" if first == NEVER else f"first in slot {first}"
        print(f"job {number} {short:2} of {windows:2} windows short, {when}")


if __name__ == "__main__":
    main()
