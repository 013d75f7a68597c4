/* Hostile arguments, handed to the three entries through include/filbertoss.h.
 *
 * What each call must return is computed here from document 01 alone. Job bytes end where a page
 * begins that must not be touched. The buffer stands between canaries, all filled with a pattern
 * that no choice can be: after a refusal every byte is compared, and after a success every byte
 * outside of offset to offset + n, while those between must name a job or be idle. What is said of
 * short windows is compared with the choices of a fill of one cycle.
 *
 * Ends with a count of the calls, or at the first failure with its arguments and status 1.
 */
#define _DEFAULT_SOURCE
#include <stdio.h>
#include <stdlib.h>
#include <string.h>
#include <sys/mman.h>
#include <unistd.h>

#include "filbertoss.h"

#define JOB FILBERTOSS_JOB_BYTES
#define JOBS_MOST 24
#define CANARY 64
#define BUF_MOST 300
#define ANSWER FILBERTOSS_BELOW_BYTES
#define CYCLE_MOST 16777216
#define RUN_MOST 4000 /* slots of the cycles that are run here often */
#define COUNT(a) (sizeof(a) / sizeof((a)[0]))

/* ---- What document 01 says. ---- */

static unsigned pair_at(const uint8_t *at)
{
    return at[0] + 256u * at[1]; /* '16 bits, low byte first' */
}

static unsigned c_of(const uint8_t *job) { return pair_at(job); }
static unsigned t_of(const uint8_t *job) { return pair_at(job + 2); }
static unsigned m_of(const uint8_t *job) { return job[4]; }
static unsigned k_of(const uint8_t *job) { return job[5]; }

/* '1 no jobs, 2 more than 16 jobs, 3, 4, 5, 6 T, C, k, m of a job not allowed': the lowest job at
 * fault, T before C before k before m. */
static uint32_t list_row(const uint8_t *jobs, size_t jobs_len)
{
    size_t count = jobs_len / 6, i;
    if (count == 0) return 1;
    if (count > 16) return 2;
    for (i = 0; i < count; i++) {
        const uint8_t *job = jobs + 6 * i;
        if (t_of(job) < 1 || t_of(job) > 4096) return 3;
        if (c_of(job) < 1 || c_of(job) > t_of(job)) return 4;
        if (k_of(job) < 1 || k_of(job) > 255) return 5;
        if (m_of(job) < 1 || m_of(job) > k_of(job)) return 6;
    }
    return 0;
}

static uint64_t divisor(uint64_t a, uint64_t b)
{
    while (b != 0) {
        uint64_t rest = a % b;
        a = b;
        b = rest;
    }
    return a;
}

static uint64_t window_of(const uint8_t *job)
{
    return (uint64_t)k_of(job) * t_of(job);
}

/* The least common multiple of all kT, or some number above the limit. */
static uint64_t cycle_of(const uint8_t *jobs, size_t jobs_len)
{
    uint64_t cycle = 1;
    size_t i;
    for (i = 0; i < jobs_len && cycle <= CYCLE_MOST; i += 6) {
        cycle = cycle / divisor(cycle, window_of(jobs + i)) * window_of(jobs + i); /* it only grows */
    }
    return cycle;
}

/* 'Tests 14, 15, then the rows above': 1 to 6, 7, 8, 9. */
static uint32_t admit_row(const uint8_t *jobs, size_t jobs_len, uint32_t model)
{
    uint64_t cycle, load = 0;
    uint32_t row;
    size_t i;
    if (jobs_len % 6 != 0) return 14;
    if (model != 0 && model != 1) return 15;
    row = list_row(jobs, jobs_len);
    if (row != 0) return row;
    if (model == 1) return 7;
    cycle = cycle_of(jobs, jobs_len);
    if (cycle > CYCLE_MOST) return 8;
    for (i = 0; i < jobs_len; i += 6) {
        load += (uint64_t)m_of(jobs + i) * c_of(jobs + i) * (cycle / window_of(jobs + i));
    }
    return load > cycle ? 9 : 0;
}

/* 'Tests 14, 15, then the rows above; for the fill 12, then 11, come after 6.' */
static uint32_t fill_row(const uint8_t *jobs, size_t jobs_len, uint32_t order, uint32_t model,
                         size_t buf_len, size_t offset, size_t n)
{
    uint32_t row;
    if (jobs_len % 6 != 0) return 14;
    if ((order != 0 && order != 1) || (model != 0 && model != 1)) return 15;
    row = list_row(jobs, jobs_len);
    if (row != 0) return row;
    if ((unsigned __int128)offset + n > buf_len) return 12;
    if (n > 4294967295u) return 11; /* a fresh run's clock is 0 */
    return 0;
}

/* Tests 14, 15, 1 to 6, 8, 12; 15 also for a spare that is not 0 or 1. */
static uint32_t below_row(const uint8_t *jobs, size_t jobs_len, uint32_t order, uint32_t model,
                          uint32_t spare, size_t buf_len)
{
    uint32_t row;
    if (jobs_len % 6 != 0) return 14;
    if (order > 1 || model > 1 || spare > 1) return 15;
    row = list_row(jobs, jobs_len);
    if (row != 0) return row;
    if (cycle_of(jobs, jobs_len) > CYCLE_MOST) return 8;
    if (buf_len < jobs_len / 6 * 12) return 12;
    return 0;
}

/* ---- One call, checked. ---- */

struct call {
    const char *entry;
    const uint8_t *jobs;
    size_t jobs_len;
    uint32_t order, model, spare;
    size_t buf_len, offset, n;
};

static unsigned long calls;
static uint8_t *jobs_end; /* the first byte that must not be touched */

static void fail(const struct call *a, const char *what, unsigned long want, unsigned long got)
{
    size_t i;
    printf("hostile: %s: %s: wanted %lu, got %lu\n", a->entry, what, want, got);
    printf("  order %lu model %lu spare %lu buf_len %zu offset %zu n %zu, %zu job bytes:",
           (unsigned long)a->order, (unsigned long)a->model, (unsigned long)a->spare, a->buf_len,
           a->offset, a->n, a->jobs_len);
    for (i = 0; i < a->jobs_len; i++) {
        printf(" %02x", a->jobs[i]);
    }
    printf("\n");
    exit(1);
}

/* The job bytes, copied to where they end at the forbidden page. */
static const uint8_t *placed(const uint8_t *jobs, size_t jobs_len)
{
    uint8_t *at = jobs_end - jobs_len;
    if (jobs_len != 0) memcpy(at, jobs, jobs_len);
    return at;
}

static void jobs_unchanged(const struct call *a, const uint8_t *at)
{
    if (a->jobs_len != 0 && memcmp(at, a->jobs, a->jobs_len) != 0) {
        fail(a, "job bytes changed", 0, 1);
    }
}

static uint32_t try_admit(const uint8_t *jobs, size_t jobs_len, uint32_t model)
{
    struct call a = {"filbertoss_admit", jobs, jobs_len, 0, model, 0, 0, 0, 0};
    const uint8_t *at = placed(jobs, jobs_len);
    uint32_t want = admit_row(jobs, jobs_len, model);
    uint32_t got = filbertoss_admit(at, jobs_len, model);
    calls++;
    if (got != want) fail(&a, "number", want, got);
    jobs_unchanged(&a, at);
    return got;
}

/* 16 to 254: no job's number, and not idle. */
static uint8_t pattern(size_t i)
{
    return (uint8_t)(16 + (i * 37 + 11) % 239);
}

static void stays(const struct call *a, const uint8_t *arena, size_t from, size_t to)
{
    size_t i;
    for (i = from; i < to; i++) {
        if (arena[i] != pattern(i)) fail(a, "a byte that was to stay", pattern(i), arena[i]);
    }
}

static uint32_t try_fill(const uint8_t *jobs, size_t jobs_len, uint32_t order, uint32_t model,
                         size_t buf_len, size_t offset, size_t n)
{
    static uint8_t arena[CANARY + BUF_MOST + CANARY], twin[BUF_MOST];
    struct call a = {"filbertoss_fill", jobs, jobs_len, order, model, 0, buf_len, offset, n};
    const uint8_t *at = placed(jobs, jobs_len);
    size_t all = CANARY + buf_len + CANARY, i;
    uint32_t want = fill_row(jobs, jobs_len, order, model, buf_len, offset, n), got;

    for (i = 0; i < all; i++) {
        arena[i] = pattern(i);
    }
    got = filbertoss_fill(at, jobs_len, order, model, arena + CANARY, buf_len, offset, n);
    calls++;
    if (got != want) fail(&a, "number", want, got);
    jobs_unchanged(&a, at);
    if (got != 0) {
        stays(&a, arena, 0, all);
        return got;
    }
    stays(&a, arena, 0, CANARY + offset);
    stays(&a, arena, CANARY + offset + n, all);
    for (i = 0; i < n; i++) {
        uint8_t choice = arena[CANARY + offset + i];
        if (choice >= jobs_len / JOB && choice != FILBERTOSS_IDLE) {
            fail(&a, "a byte that names no job", FILBERTOSS_IDLE, choice);
        }
    }

    /* The same run at another place has the same choices. */
    got = filbertoss_fill(at, jobs_len, order, model, twin, sizeof twin, 0, n);
    calls++;
    if (got != 0) fail(&a, "the same run at offset 0", 0, got);
    if (memcmp(twin, arena + CANARY + offset, n) != 0) fail(&a, "choices differ by offset", 0, 1);
    return 0;
}

static unsigned long number_at(const uint8_t *at)
{
    return at[0] + 256ul * at[1] + 65536ul * at[2] + 16777216ul * at[3]; /* low byte first */
}

/* In the relaxed model, spare off: a window ends short if its job got fewer than m times C of its
 * slots, by the choices of one cycle. */
static void short_by_choices(const struct call *a, const uint8_t *at, const uint8_t *answers)
{
    static uint8_t choices[RUN_MOST];
    uint64_t cycle = cycle_of(a->jobs, a->jobs_len), n;
    size_t j;
    if (filbertoss_fill(at, a->jobs_len, a->order, 0, choices, sizeof choices, 0, cycle) != 0) {
        fail(a, "a fill of one cycle", 0, 1);
    }
    calls++;
    for (j = 0; j < a->jobs_len / JOB; j++) {
        const uint8_t *job = a->jobs + JOB * j;
        unsigned long got = 0, count = 0, first = FILBERTOSS_NEVER;
        for (n = 0; n < cycle; n++) {
            got += choices[n] == j;
            if ((n + 1) % window_of(job) != 0) continue;
            if (got < (unsigned long)m_of(job) * c_of(job)) {
                if (count == 0) first = n;
                count++;
            }
            got = 0;
        }
        if (number_at(answers + ANSWER * j + 4) != count) {
            fail(a, "short windows", count, number_at(answers + ANSWER * j + 4));
        }
        if (number_at(answers + ANSWER * j + 8) != first) {
            fail(a, "first short slot", first, number_at(answers + ANSWER * j + 8));
        }
    }
}

static uint32_t try_below(const uint8_t *jobs, size_t jobs_len, uint32_t order, uint32_t model,
                          uint32_t spare, size_t buf_len)
{
    static uint8_t arena[CANARY + BUF_MOST + CANARY];
    struct call a = {"filbertoss_below", jobs, jobs_len, order, model, spare, buf_len, 0, 0};
    const uint8_t *at = placed(jobs, jobs_len), *answers = arena + CANARY;
    size_t all = CANARY + buf_len + CANARY, count = jobs_len / JOB, i;
    uint32_t want = below_row(jobs, jobs_len, order, model, spare, buf_len), got;

    for (i = 0; i < all; i++) {
        arena[i] = pattern(i);
    }
    got = filbertoss_below(at, jobs_len, order, model, spare, arena + CANARY, buf_len);
    calls++;
    if (got != want) fail(&a, "number", want, got);
    jobs_unchanged(&a, at);
    if (got != 0) {
        stays(&a, arena, 0, all);
        return got;
    }
    stays(&a, arena, 0, CANARY);
    stays(&a, arena, CANARY + ANSWER * count, all);
    for (i = 0; i < count; i++) {
        unsigned long windows = number_at(answers + ANSWER * i), few = number_at(answers + ANSWER * i + 4);
        unsigned long first = number_at(answers + ANSWER * i + 8);
        uint64_t cycle = cycle_of(jobs, jobs_len), window = window_of(jobs + JOB * i);
        if (windows != cycle / window) fail(&a, "windows", (unsigned long)(cycle / window), windows);
        if (few > windows) fail(&a, "short windows", windows, few);
        if ((few == 0) != (first == FILBERTOSS_NEVER)) fail(&a, "never", few, first);
        /* a window of kT slots ends with its last */
        if (few != 0 && (first >= cycle || (first + 1) % window != 0)) fail(&a, "first short slot", few, first);
        /* an admitted list, relaxed and in window order, is never short */
        if (few != 0 && order == 1 && model == 0 && admit_row(jobs, jobs_len, 0) == 0) {
            fail(&a, "an admitted list", 0, few);
        }
    }
    if (model == 0 && spare == 0 && cycle_of(jobs, jobs_len) <= RUN_MOST) {
        short_by_choices(&a, at, answers);
    }
    return 0;
}

/* ---- The arguments. ---- */

static const uint32_t settings[] = {0, 1, 2, 3, 255, 256, 257, 0x7fffffff, 0x80000000, 0x80000001, 0xfffffffe, 0xffffffff};

static void put(uint8_t *at, unsigned c, unsigned t, unsigned m, unsigned k)
{
    at[0] = (uint8_t)c;
    at[1] = (uint8_t)(c >> 8);
    at[2] = (uint8_t)t;
    at[3] = (uint8_t)(t >> 8);
    at[4] = (uint8_t)m;
    at[5] = (uint8_t)k;
}

static void good_list(uint8_t *jobs, size_t count)
{
    size_t i;
    for (i = 0; i < count; i++) {
        put(jobs + JOB * i, 1 + (unsigned)(i % 2), 4 + (unsigned)(i % 5), 1, 2);
    }
}

/* Two entries, in each setting, with room for the choices. */
static void try_settings(const uint8_t *jobs, size_t jobs_len)
{
    size_t o, m;
    for (m = 0; m < COUNT(settings); m++) {
        try_admit(jobs, jobs_len, settings[m]);
        for (o = 0; o < COUNT(settings); o++) {
            try_fill(jobs, jobs_len, settings[o], settings[m], 40, 3, 30);
        }
    }
}

/* The third, with each number for one of order, model and spare. */
static void try_below_settings(const uint8_t *jobs, size_t jobs_len, size_t buf_len)
{
    size_t i;
    for (i = 0; i < COUNT(settings); i++) {
        uint32_t x = settings[i];
        try_below(jobs, jobs_len, x, 0, 0, buf_len);
        try_below(jobs, jobs_len, 1, x, 0, buf_len);
        try_below(jobs, jobs_len, 0, 1, x, buf_len);
        try_below(jobs, jobs_len, x, x, x, buf_len);
    }
}

/* Two entries, in the four settings that are allowed. */
static void try_allowed(const uint8_t *jobs, size_t jobs_len)
{
    uint32_t order, model;
    for (model = 0; model < 2; model++) {
        try_admit(jobs, jobs_len, model);
        for (order = 0; order < 2; order++) {
            try_fill(jobs, jobs_len, order, model, 24, 1, 20);
        }
    }
}

/* Job bytes of every length, of good jobs, of zeros and of ones. */
static void lengths(void)
{
    uint8_t jobs[JOBS_MOST * JOB];
    size_t len;
    for (len = 0; len <= 103; len++) {
        good_list(jobs, JOBS_MOST);
        try_settings(jobs, len);
        memset(jobs, 0, sizeof jobs);
        try_settings(jobs, len);
        memset(jobs, 0xff, sizeof jobs);
        try_settings(jobs, len);
    }
}

/* Job bytes of every length to 200 with room for 16 answers and, of each list, a buffer of every
 * length to 200. */
static void below_lengths(void)
{
    uint8_t jobs[34 * JOB];
    size_t len, count;
    good_list(jobs, 34);
    for (len = 0; len <= 200; len++) {
        try_below_settings(jobs, len, 16 * ANSWER);
        for (count = 1; count <= 16; count++) {
            try_below(jobs, JOB * count, 1, 0, 1, len);
        }
    }
    for (count = 1; count <= 16; count++) {
        for (len = ANSWER * count - 1; len <= ANSWER * count + 1; len++) {
            try_below_settings(jobs, JOB * count, len);
        }
    }
    memset(jobs, 0xff, sizeof jobs);
    for (len = 0; len <= 200; len++) {
        try_below_settings(jobs, len, 16 * ANSWER);
    }
}

/* Lists whose count would be small if it were cut to 8, 16 or 32 bits. Behind their first page is
 * address space that must not be touched. */
static void long_lists(size_t page)
{
    static const size_t counts[] = {18, 255, 256, 257, 65535, 65536, 65537, 4294967295, 4294967296, 4294967297};
    const size_t len = JOB * 4294967298;
    uint8_t *jobs = mmap(NULL, len, PROT_NONE, MAP_PRIVATE | MAP_ANONYMOUS | MAP_NORESERVE, -1, 0);
    size_t i, extra;
    if (jobs == MAP_FAILED || mprotect(jobs, page, PROT_READ | PROT_WRITE) != 0) {
        perror("hostile: mmap");
        exit(1);
    }
    good_list(jobs, page / JOB);
    for (i = 0; i < COUNT(counts); i++) {
        for (extra = 0; extra < JOB; extra++) {
            struct call a = {"a long list", jobs, 0, 1, 0, 0, 4, 0, 4};
            size_t jobs_len = JOB * counts[i] + extra;
            uint32_t want = extra != 0 ? 14 : 2, got;
            uint8_t buf[4] = {20, 21, 22, 23};
            got = filbertoss_admit(jobs, jobs_len, 0);
            if (got != want) fail(&a, "admission", want, got);
            got = filbertoss_fill(jobs, jobs_len, 1, 0, buf, sizeof buf, 0, sizeof buf);
            if (got != want) fail(&a, "fill", want, got);
            got = filbertoss_below(jobs, jobs_len, 1, 0, 0, buf, sizeof buf);
            if (got != want) fail(&a, "short windows", want, got);
            if (memcmp(buf, "\24\25\26\27", sizeof buf) != 0) fail(&a, "a byte that was to stay", 0, 1);
            calls += 3;
        }
    }
    if (munmap(jobs, len) != 0) {
        perror("hostile: munmap");
        exit(1);
    }
}

/* One job with each number at and past each limit, at each place of lists up to 17 long. */
static void limits(void)
{
    static const unsigned counts[] = {1, 2, 3, 15, 16, 17};
    static const unsigned ts[] = {0, 1, 2, 255, 256, 4095, 4096, 4097, 65535};
    static const unsigned ks[] = {0, 1, 2, 254, 255};
    uint8_t jobs[JOBS_MOST * JOB];
    size_t n, t, c, k, m, at;
    for (n = 0; n < COUNT(counts); n++) {
        for (at = 0; at < counts[n]; at += (counts[n] > 3 ? 7 : 1)) {
            for (t = 0; t < COUNT(ts); t++) {
                const unsigned cs[] = {0, 1, ts[t] - 1, ts[t], ts[t] + 1, 65535};
                for (c = 0; c < COUNT(cs); c++) {
                    for (k = 0; k < COUNT(ks); k++) {
                        const unsigned ms[] = {0, 1, ks[k] - 1, ks[k], ks[k] + 1, 255};
                        for (m = 0; m < COUNT(ms); m++) {
                            good_list(jobs, counts[n]);
                            put(jobs + JOB * at, cs[c], ts[t], ms[m], ks[k]);
                            try_allowed(jobs, JOB * (size_t)counts[n]);
                        }
                    }
                }
            }
        }
    }
}

/* Faults by row, and what document 01's order makes of two jobs at fault. */
static void two_jobs_at_fault(void)
{
    static const unsigned faults[4][4] = {{1, 4097, 1, 1}, {5, 4, 1, 1}, {1, 4, 1, 0}, {1, 4, 2, 1}};
    uint8_t jobs[16 * JOB];
    unsigned f, g;
    for (f = 0; f < 4; f++) {
        for (g = 0; g < 4; g++) {
            struct call a = {"two jobs at fault", jobs, sizeof jobs, 0, 0, 0, 0, 0, 0};
            uint32_t got;
            good_list(jobs, 16);
            put(jobs + JOB * 5, faults[f][0], faults[f][1], faults[f][2], faults[f][3]);
            put(jobs + JOB * 11, faults[g][0], faults[g][1], faults[g][2], faults[g][3]);
            got = try_admit(jobs, sizeof jobs, 0);
            if (got != 3 + f) fail(&a, "the lower job's row", 3 + f, got);
            got = try_fill(jobs, sizeof jobs, 0, 0, 10, 0, 10);
            if (got != 3 + f) fail(&a, "the lower job's row", 3 + f, got);
        }
    }
}

/* Every pair of offset and n, at and past the length and where the sum wraps. */
static void places(void)
{
    static const size_t buf_lens[] = {0, 1, 2, 7, 64, BUF_MOST};
    uint8_t jobs[3 * JOB];
    size_t b, o, n;
    uint32_t order, model;
    good_list(jobs, 3);
    for (b = 0; b < COUNT(buf_lens); b++) {
        const size_t len = buf_lens[b];
        const size_t at[] = {
            0, 1, 2, len / 2, len - 2, len - 1, len, len + 1, len + 2,
            0x7fffffff, 0x80000000, 0xfffffffe, 0xffffffff, 0x100000000, 0x100000001,
            0x100000000 + len, SIZE_MAX / 2, SIZE_MAX / 2 + 1, SIZE_MAX / 2 + 2, SIZE_MAX - len - 1,
            SIZE_MAX - len, SIZE_MAX - len + 1, SIZE_MAX - 2, SIZE_MAX - 1, SIZE_MAX};
        for (o = 0; o < COUNT(at); o++) {
            for (n = 0; n < COUNT(at); n++) {
                for (order = 0; order < 2; order++) {
                    for (model = 0; model < 2; model++) {
                        try_fill(jobs, sizeof jobs, order, model, len, at[o], at[n]);
                    }
                }
            }
        }
    }
}

/* Null pointers where the length is 0. */
static void nulls(void)
{
    static const size_t at[] = {0, 1, SIZE_MAX};
    uint8_t jobs[JOB];
    size_t o, n;
    struct call a = {"null pointers", jobs, 0, 0, 0, 0, 0, 0, 0};
    uint32_t got = filbertoss_admit(NULL, 0, 0);
    calls++;
    if (got != 1) fail(&a, "admission of no jobs", 1, got);
    got = filbertoss_below(NULL, 0, 1, 0, 1, NULL, 0);
    calls++;
    if (got != 1) fail(&a, "short windows of no jobs", 1, got);
    good_list(jobs, 1);
    got = filbertoss_below(jobs, JOB, 1, 0, 1, NULL, 0);
    calls++;
    if (got != 12) fail(&a, "short windows and no buffer", 12, got);
    for (o = 0; o < COUNT(at); o++) {
        for (n = 0; n < COUNT(at); n++) {
            uint32_t want = fill_row(jobs, JOB, 1, 0, 0, at[o], at[n]);
            a.jobs_len = JOB, a.offset = at[o], a.n = at[n];
            got = filbertoss_fill(jobs, JOB, 1, 0, NULL, 0, at[o], at[n]);
            if (got != want) fail(&a, "no buffer", want, got);
            a.jobs_len = 0;
            got = filbertoss_fill(NULL, 0, 1, 0, NULL, 0, at[o], at[n]);
            if (got != 1) fail(&a, "no jobs and no buffer", 1, got);
            calls += 2;
        }
    }
}

/* One fault or none from each group, in every combination, with the number written out: 14 before
 * 15 before 1 to 6 before 12 before 11. The buffer is address space that must not be touched, and
 * so long that row 11 can be reached: 4,294,967,296 + 16 bytes. */
static void orders_of_tests(void)
{
    const size_t past = 4294967296, len = past + 16;
    static const struct { uint32_t row, order, model; } set[] = {{0, 1, 0}, {15, 2, 0}, {15, 0, 2}, {15, 3, 0xffffffff}};
    const struct { uint32_t row; size_t offset, n; } place[] = {
        {11, 0, past}, {11, 16, past}, {11, 0, len}, {11, 15, past + 1}, {12, 17, past},
        {12, 16, past + 1}, {12, len + 1, 0}, {12, len, 1}, {12, 0, len + 1}, {12, SIZE_MAX, past},
        {12, past, SIZE_MAX}, {12, SIZE_MAX, SIZE_MAX}, {12, SIZE_MAX - past + 1, past},
        {12, 1, SIZE_MAX}, {0, 0, 0}, {0, 16, 0}, {0, len, 0}};
    uint8_t lists[8][17 * JOB + 1];
    static const struct { uint32_t row; size_t count; } list[8] = {{0, 2}, {1, 0}, {2, 17}, {3, 2}, {4, 2}, {5, 2}, {6, 2}, {0, 16}};
    uint8_t *buf = mmap(NULL, len, PROT_NONE, MAP_PRIVATE | MAP_ANONYMOUS | MAP_NORESERVE, -1, 0);
    size_t l, s, p, extra;
    if (buf == MAP_FAILED) {
        perror("hostile: mmap");
        exit(1);
    }
    for (l = 0; l < 8; l++) {
        good_list(lists[l], 17);
        lists[l][17 * JOB] = 0;
    }
    put(lists[3] + JOB, 0, 0, 0, 0);    /* all four at fault: T first */
    put(lists[4] + JOB, 0, 4096, 0, 0); /* C, k and m at fault: C first */
    put(lists[5] + JOB, 1, 1, 0, 0);    /* k and m at fault: k first */
    put(lists[6] + JOB, 1, 1, 0, 255);
    for (l = 0; l < 8; l++) {
        for (extra = 0; extra < 2; extra++) {
            for (s = 0; s < COUNT(set); s++) {
                for (p = 0; p < COUNT(place); p++) {
                    size_t jobs_len = JOB * list[l].count + extra;
                    uint32_t want = extra != 0         ? 14
                                    : set[s].row != 0  ? set[s].row
                                    : list[l].row != 0 ? list[l].row
                                                       : place[p].row;
                    struct call a = {"order of tests", lists[l], jobs_len, set[s].order, set[s].model, 0, len, place[p].offset, place[p].n};
                    uint32_t by_rules = fill_row(lists[l], jobs_len, set[s].order, set[s].model, len, place[p].offset, place[p].n);
                    uint32_t got = filbertoss_fill(placed(lists[l], jobs_len), jobs_len, set[s].order, set[s].model, buf, len, place[p].offset, place[p].n);
                    calls++;
                    if (by_rules != want) fail(&a, "this test's own rules", want, by_rules);
                    if (got != want) fail(&a, "number", want, got);
                }
            }
        }
    }
    if (munmap(buf, len) != 0) {
        perror("hostile: munmap");
        exit(1);
    }
}

/* The same for the third entry: 14 before 15 before 1 to 6 before 8 before 12. */
static void orders_of_below(void)
{
    static const struct { uint32_t row, order, model, spare; } set[] = {
        {0, 1, 0, 0}, {0, 0, 1, 1}, {15, 2, 0, 0}, {15, 0, 2, 1}, {15, 1, 1, 2}, {15, 1, 0, 0xffffffff}, {15, 3, 4, 5}};
    static const struct { uint32_t row; size_t len; } place[] = {{0, BUF_MOST}, {0, 2 * ANSWER}, {12, 2 * ANSWER - 1}, {12, 0}};
    static const struct { uint32_t row, count; unsigned last[4]; } list[] = {
        {0, 2, {2, 6, 1, 2}}, {1, 0, {0, 0, 0, 0}}, {2, 17, {0, 0, 0, 0}}, {3, 2, {0, 0, 0, 0}},
        {4, 2, {0, 4096, 0, 0}}, {5, 2, {1, 1, 0, 0}}, {6, 2, {1, 1, 0, 255}}, {8, 3, {1, 4095, 1, 253}}};
    uint8_t jobs[17 * JOB + 1];
    size_t l, s, p, extra;
    for (l = 0; l < COUNT(list); l++) {
        good_list(jobs, 17);
        put(jobs, 1, 4096, 1, 255);
        jobs[17 * JOB] = 0;
        if (list[l].row == 0) put(jobs, 1, 4, 1, 2);
        if (list[l].count != 0) {
            put(jobs + JOB * (list[l].count - 1), list[l].last[0], list[l].last[1], list[l].last[2], list[l].last[3]);
        }
        for (extra = 0; extra < 2; extra++) {
            for (s = 0; s < COUNT(set); s++) {
                for (p = 0; p < COUNT(place); p++) {
                    size_t jobs_len = JOB * list[l].count + extra;
                    uint32_t want = extra != 0         ? 14
                                    : set[s].row != 0  ? set[s].row
                                    : list[l].row != 0 ? list[l].row
                                                       : place[p].row;
                    struct call a = {"order of tests, below", jobs, jobs_len, set[s].order, set[s].model, set[s].spare, place[p].len, 0, 0};
                    uint32_t got = try_below(jobs, jobs_len, set[s].order, set[s].model, set[s].spare, place[p].len);
                    if (got != want) fail(&a, "row", want, got);
                }
            }
        }
    }
}

/* Cycles at the limit: the whole of one is run where the list is not admitted or the order is V. */
static void long_cycles(void)
{
    uint8_t jobs[2 * JOB];
    put(jobs, 1, 4095, 1, 1);
    put(jobs + JOB, 1, 241, 1, 17); /* cycle 16,777,215 */
    try_below(jobs, sizeof jobs, 1, 0, 1, sizeof jobs / JOB * ANSWER);
    try_below(jobs, sizeof jobs, 0, 1, 1, sizeof jobs / JOB * ANSWER);
    put(jobs, 4095, 4095, 1, 1);
    try_below(jobs, sizeof jobs, 1, 0, 0, sizeof jobs / JOB * ANSWER);
    put(jobs, 1, 257, 1, 97);
    put(jobs + JOB, 1, 673, 1, 1); /* cycle 16,777,217 */
    try_below(jobs, sizeof jobs, 0, 0, 0, sizeof jobs / JOB * ANSWER);
}

/* Rows 7, 8 and 9 of admission, each at its edge: C T m k. */
static void admission_edges(void)
{
    static const struct { uint32_t row; unsigned count, jobs[3][4]; } edge[] = {
        {0, 3, {{1, 2, 1, 1}, {1, 3, 1, 1}, {1, 6, 1, 1}}},     /* case H: load 6 of 6 */
        {9, 3, {{1, 2, 1, 1}, {1, 2, 1, 1}, {1, 100, 1, 255}}}, /* case I: 25,501 of 25,500 */
        {0, 1, {{4096, 4096, 255, 255}}},                       /* the whole processor */
        {9, 2, {{4096, 4096, 255, 255}, {1, 4096, 1, 255}}},    /* and one slot more */
        {0, 2, {{1, 4095, 1, 1}, {1, 241, 1, 17}}},             /* cycle 16,777,215 */
        {8, 2, {{1, 257, 1, 97}, {1, 673, 1, 1}}},              /* cycle 16,777,217 */
        {8, 3, {{1, 4096, 1, 255}, {1, 4093, 1, 254}, {1, 4091, 1, 253}}},
    };
    uint8_t jobs[3 * JOB];
    size_t e, i;
    for (e = 0; e < COUNT(edge); e++) {
        struct call a = {"edges of admission", jobs, JOB * (size_t)edge[e].count, 0, 0, 0, 0, 0, 0};
        uint32_t got;
        for (i = 0; i < edge[e].count; i++) {
            put(jobs + JOB * i, edge[e].jobs[i][0], edge[e].jobs[i][1], edge[e].jobs[i][2], edge[e].jobs[i][3]);
        }
        got = try_admit(jobs, a.jobs_len, 0);
        if (got != edge[e].row) fail(&a, "row", edge[e].row, got);
        got = try_admit(jobs, a.jobs_len, 1);
        if (got != 7) fail(&a, "row", 7, got);
    }
}

/* Anything at all, the same in every run. */
static uint64_t drawn = 88172645463325252u;

static uint64_t draw(uint64_t below)
{
    drawn ^= drawn << 13;
    drawn ^= drawn >> 7;
    drawn ^= drawn << 17;
    return drawn % below;
}

static unsigned near(unsigned limit)
{
    return draw(8) == 0 ? (unsigned)draw(65536) : 1 + (unsigned)draw(limit + 1);
}

static void anything(unsigned long times)
{
    uint8_t jobs[JOBS_MOST * JOB];
    while (times-- != 0) {
        size_t count = draw(19), i;
        size_t jobs_len = count * JOB + (draw(16) == 0 ? draw(JOB) : 0);
        size_t buf_len = draw(BUF_MOST + 1);
        size_t offset = draw(16) == 0 ? SIZE_MAX - draw(400) : draw(buf_len + 2);
        size_t n = draw(16) == 0 ? SIZE_MAX - draw(400) : draw(buf_len + 2);
        uint32_t order = draw(32) == 0 ? (uint32_t)draw(4294967296) : (uint32_t)draw(2);
        uint32_t model = draw(32) == 0 ? (uint32_t)draw(4294967296) : (uint32_t)draw(2);
        for (i = 0; i < JOBS_MOST; i++) {
            unsigned t = draw(64) == 0 ? near(65535) : 1 + (unsigned)draw(16);
            unsigned k = draw(64) == 0 ? near(255) : 1 + (unsigned)draw(6);
            put(jobs + JOB * i, draw(64) == 0 ? near(t) : 1 + (unsigned)draw(t), t,
                draw(64) == 0 ? near(k) : 1 + (unsigned)draw(k), k);
        }
        try_admit(jobs, jobs_len, model);
        try_fill(jobs, jobs_len, order, model, buf_len, offset, n);
        if (jobs_len % JOB != 0 || list_row(jobs, jobs_len) != 0 || cycle_of(jobs, jobs_len) <= RUN_MOST
            || cycle_of(jobs, jobs_len) > CYCLE_MOST) {
            uint32_t spare = draw(32) == 0 ? (uint32_t)draw(4294967296) : (uint32_t)draw(2);
            try_below(jobs, jobs_len, order, model, spare, draw(2) == 0 ? buf_len : ANSWER * (jobs_len / JOB));
        }
    }
}

int main(void)
{
    size_t page = (size_t)sysconf(_SC_PAGESIZE);
    uint8_t *room = mmap(NULL, 2 * page, PROT_READ | PROT_WRITE, MAP_PRIVATE | MAP_ANONYMOUS, -1, 0);
    if (room == MAP_FAILED || mprotect(room + page, page, PROT_NONE) != 0) {
        perror("hostile: mmap");
        return 1;
    }
    jobs_end = room + page;

    lengths();
    below_lengths();
    long_lists(page);
    limits();
    two_jobs_at_fault();
    places();
    nulls();
    orders_of_tests();
    orders_of_below();
    long_cycles();
    admission_edges();
    anything(100000);

    printf("hostile: %lu calls, every number and every byte as document 01 says\n", calls);
    return 0;
}
