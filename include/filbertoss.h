/* Filbertoss: admission and timetables of window-constrained jobs, and which of them can fall below
 * their stated part, for ground tools in C and C++ and, as a shared library, in other languages.
 *
 * Link with libentry.a, which `tools/build entry` writes to target/staticlib/ (x86-64 Linux). For a
 * shared library, take the archive whole:
 *     gcc -shared -Wl,-z,now,-soname,libfilbertoss.so -Wl,--whole-archive target/staticlib/libentry.a \
 *         -Wl,--no-whole-archive -o target/libfilbertoss.so
 *
 * The three functions are proved to return what is said here, for all arguments that keep what the
 * caller owes (below). They keep nothing between calls and may be called from several threads at once.
 * Looked up in the archive, and not proved: they allocate nothing, have no static data, and need of the C
 * library memcpy and memset and nothing else.
 *
 * A job is C (slots for one turn), T (slots in a period; each brings one turn), m and k. Its window is k
 * periods, k times T slots, the first from slot 0; it ends short if fewer than m turns were finished in
 * it. A job needs a slot if it is still owed a part of its m turns and does not run ahead of its periods.
 * A list has 1 to 16 jobs, numbered from 0. docs/RULES.md has the rules of a slot on two pages.
 *
 * Job bytes: 6 bytes a job, one job after the other.
 *     byte 0, 1   C, 16 bits, low byte first     allowed: 1 to T
 *     byte 2, 3   T, 16 bits, low byte first     allowed: 1 to 4,096
 *     byte 4      m                              allowed: 1 to k
 *     byte 5      k                              allowed: 1 to 255
 * A number that does not fit its bytes is for the caller to refuse: k = 300, cut off to a byte, is 44.
 *
 * What the caller owes, since nothing here can test it:
 *   - `jobs` points to `jobs_len` bytes that may be read, and `buf` to `buf_len` bytes that may be
 *     read and written. A pointer may be null where its length is 0.
 *   - No length is above PTRDIFF_MAX, as that of no object is.
 *   - The bytes of `jobs` and of `buf` do not overlap, and nobody else writes either, or reads
 *     `buf`, before the call returns.
 * The other arguments may be any numbers; in particular offset + n may be more than SIZE_MAX.
 */
#ifndef FILBERTOSS_H
#define FILBERTOSS_H

#include <stddef.h>
#include <stdint.h>

/* The most jobs of a list, and the bytes of one. */
#define FILBERTOSS_MOST_JOBS 16
#define FILBERTOSS_JOB_BYTES 6

/* Orders. V: lowest virtual deadline first. W: soonest window end first. Where two jobs are equal in
 * this, the lower job number goes first. */
#define FILBERTOSS_ORDER_V 0
#define FILBERTOSS_ORDER_W 1

/* Models. Relaxed: a turn begun before a period ends keeps its served part inside its window; at the
 * window's end an unfinished part is lost. Original: it is lost at the period's end. */
#define FILBERTOSS_RELAXED 0
#define FILBERTOSS_ORIGINAL 1

/* Spare. On: a slot that no job needs goes to a job that has its m and has more to do, the soonest window
 * end first, then the lower job number. Off: it is idle. */
#define FILBERTOSS_SPARE_OFF 0
#define FILBERTOSS_SPARE_ON 1

/* The byte of a slot that no job got. */
#define FILBERTOSS_IDLE 255

/* Bytes that filbertoss_below writes for one job; and what stands there for the first short slot where no
 * window of the job ends short. */
#define FILBERTOSS_BELOW_BYTES 12
#define FILBERTOSS_NEVER 4294967295u

/* Bytes of stack that a call needs: measured, not proved, and rounded up. filbertoss_below needs most,
 * filbertoss_fill less than two thirds of this number, filbertoss_admit less than an eighth. That is with memcpy
 * and memset bound: linked statically, or with -Wl,-z,now. Else the first call of the program also needs
 * the stack that the loader takes to look them up, some kilobytes that depend on the processor. */
#define FILBERTOSS_STACK_BYTES 6144

/* What a call returns: FILBERTOSS_OK, or the number of the first of its tests that fails; then no byte
 * is written at all. 3 to 6 speak of the lowest job at fault, T before C before k before m; which job it
 * is is not returned (the programs print it). The common cycle is the least common multiple of all k
 * times T; the load is the sum of all m times C times cycle / (k times T). 10, 13, 16 and 17 are about
 * states and sheets and are not returned here; what the programs print as `refused N` has the same
 * numbers. docs/REFUSALS.md says how to mend each. */
#define FILBERTOSS_OK 0
#define FILBERTOSS_REFUSED_NO_JOBS 1             /* no jobs */
#define FILBERTOSS_REFUSED_TOO_MANY_JOBS 2       /* more than 16 jobs */
#define FILBERTOSS_REFUSED_PERIOD 3              /* T of a job is not 1 to 4,096 */
#define FILBERTOSS_REFUSED_SERVICE 4             /* C of a job is not 1 to T */
#define FILBERTOSS_REFUSED_WINDOW 5              /* k of a job is not 1 to 255 */
#define FILBERTOSS_REFUSED_SHARE 6               /* m of a job is not 1 to k */
#define FILBERTOSS_REFUSED_ORIGINAL_MODEL 7      /* admission is only for the relaxed model */
#define FILBERTOSS_REFUSED_CYCLE_TOO_LONG 8      /* the common cycle is above 16,777,216 slots */
#define FILBERTOSS_REFUSED_OVERLOAD 9            /* the load is above the cycle */
#define FILBERTOSS_REFUSED_STATE_OUT_OF_RANGE 10 /* a state is out of its ranges */
#define FILBERTOSS_REFUSED_CLOCK_AT_LIMIT 11     /* the clock would pass 4,294,967,295 */
#define FILBERTOSS_REFUSED_BUFFER_TOO_SHORT 12   /* the buffer is too short */
#define FILBERTOSS_REFUSED_SHEET_FORM 13         /* the sheet is not of the stated form */
#define FILBERTOSS_REFUSED_JOB_BYTES 14          /* the job bytes are not a multiple of 6 */
#define FILBERTOSS_REFUSED_ORDER_OR_MODEL 15     /* order, model or spare is not 0 or 1 */
#define FILBERTOSS_REFUSED_SLOT_COUNT 16         /* the sheet's slot count is not 1 to 4,096 */
#define FILBERTOSS_REFUSED_SHEET_TOO_LONG 17     /* the sheet is over 4,096 bytes */

#ifdef __cplusplus
extern "C" {
#endif

/* FILBERTOSS_OK if the list is admitted, that is, if its load is at most its cycle: run in order W, relaxed,
 * it then has no short window. In order V it may have: ask filbertoss_below.
 * Tests, in this order: 14, 15, 1, 2, 3 to 6, 7, 8, 9. */
uint32_t filbertoss_admit(const uint8_t *jobs, size_t jobs_len, uint32_t model);

/* Starts a fresh run of the list at slot 0 and writes its first n choices to buf[offset] up to
 * buf[offset + n - 1], one byte each: the number of the job that gets the slot, or
 * FILBERTOSS_IDLE. No other byte is written. The list need not be admitted. A slot that no job needs
 * stays idle: spare slots are not given away here.
 * Tests, in this order: 14, 15, 1, 2, 3 to 6, 12 (offset + n, as a whole number, is above buf_len), 11
 * (n is above 4,294,967,295). With n = 0 they are the same, and nothing is written. */
uint32_t filbertoss_fill(const uint8_t *jobs, size_t jobs_len, uint32_t order, uint32_t model,
                         uint8_t *buf, size_t buf_len, size_t offset, size_t n);

/* Which jobs can fall below their stated part, and how often: runs one cycle of the list from slot 0
 * and writes 12 bytes a job, job after job, from buf[0] on. No other byte is written. The list need
 * not be admitted.
 *
 *     byte 0 to 3     windows that the job has in a cycle: cycle / (k times T)
 *     byte 4 to 7     how many of these end short
 *     byte 8 to 11    the last slot of the first that does, from slot 0 on, or FILBERTOSS_NEVER
 * Each is a number of 32 bits, low byte first. A run repeats itself after a cycle, so this is the answer
 * up to the clock's limit: q cycles have q times as many short windows, and a job that never falls below
 * in one never does.
 *
 * Tests, in this order: 14, 15, 1, 2, 3 to 6, 8, 12 (buf_len is below 12 times the jobs). A call runs up
 * to 16,777,216 slots, which can take a second or two, also where 12 is returned; unless the list is
 * admitted and the setting is order W, relaxed: then no window ends short, and nothing is run. */
uint32_t filbertoss_below(const uint8_t *jobs, size_t jobs_len, uint32_t order, uint32_t model,
                          uint32_t spare, uint8_t *buf, size_t buf_len);

#ifdef __cplusplus
}
#endif

#endif
