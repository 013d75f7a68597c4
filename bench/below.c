/* Nanoseconds a slot of `filbertoss_below`, which runs one cycle, beside the timetable's writer over as many slots of the same list; and
   a call that needs no run, beside the admission of its list.

     bench-below            the table; the last line has the most and the mean of the ratios */
#define _POSIX_C_SOURCE 200809L
#include "filbertoss.h"

#include <stdbool.h>
#include <stdio.h>
#include <stdlib.h>
#include <time.h>

/* Every window divides CYCLE, so that no list's cycle is longer. */
enum { CYCLE = 55440, ROUNDS = 12, CALLS = 2000 };

static const size_t counts[] = {1, 4, 8, 16};
static uint64_t seed = 1;

static uint32_t draw(uint32_t low, uint32_t high)
{
    seed ^= seed << 13;
    seed ^= seed >> 7;
    seed ^= seed << 17;
    return low + (uint32_t)(seed % (high - low + 1));
}

static uint32_t divisor_of(uint32_t x, uint32_t most)
{
    for (;;) {
        uint32_t d = draw(1, x < most ? x : most);
        if (x % d == 0)
            return d;
    }
}

/* A sound job whose part of the load is near `share`: the nearest of some draws. */
static void draw_job(uint8_t *bytes, double share)
{
    double best = 1e9;
    for (int i = 0; i < 200; i++) {
        uint32_t t = divisor_of(CYCLE, 4096), k = divisor_of(CYCLE / t, 255), c = draw(1, t);
        double want = share * k * t / c;
        uint32_t m = want < 1 ? 1 : want > k ? k : (uint32_t)(want + 0.5);
        double is = (double)m * c / ((double)k * t), off = is > share ? is - share : share - is;
        if (off < best) {
            best = off;
            uint8_t job[] = {c & 255, c >> 8, t & 255, t >> 8, m, k};
            for (int b = 0; b < FILBERTOSS_JOB_BYTES; b++)
                bytes[b] = job[b];
        }
    }
}

static double now(void)
{
    struct timespec t;
    clock_gettime(CLOCK_MONOTONIC, &t);
    return 1e9 * t.tv_sec + t.tv_nsec;
}

static uint8_t jobs[16 * FILBERTOSS_JOB_BYTES], slots[CYCLE], told[16 * FILBERTOSS_BELOW_BYTES];

static void must(uint32_t refusal)
{
    if (refusal != 0) {
        printf("refused %u\n", refusal);
        exit(1);
    }
}

/* The cycle of the list, from the first job's windows. */
static uint32_t cycle_of(void)
{
    uint32_t windows = told[0] + 256u * told[1] + 65536u * told[2] + 16777216u * told[3];
    return windows * (jobs[2] + 256u * jobs[3]) * jobs[5];
}

struct pace {
    double below, write;
};

/* The least of some rounds, the two in turns. */
static struct pace measure(size_t count, uint32_t order, uint32_t model)
{
    struct pace least = {1e18, 1e18};
    must(filbertoss_below(jobs, count * FILBERTOSS_JOB_BYTES, order, model, 0, told, sizeof told));
    uint32_t n = cycle_of();
    for (int round = 0; round < ROUNDS; round++) {
        double start = now();
        must(filbertoss_below(jobs, count * FILBERTOSS_JOB_BYTES, order, model, 0, told, sizeof told));
        double middle = now();
        must(filbertoss_fill(jobs, count * FILBERTOSS_JOB_BYTES, order, model, slots, sizeof slots, 0, n));
        double end = now();
        if ((middle - start) / n < least.below)
            least.below = (middle - start) / n;
        if ((end - middle) / n < least.write)
            least.write = (end - middle) / n;
    }
    return least;
}

/* Lists that need a run: light in order V and in the original model, twice the cycle in every setting. */
static void table(void)
{
    double most = 0, sum = 0;
    int cells = 0;
    printf("jobs order model load   below  writer  ratio\n");
    for (int load = 0; load < 2; load++)
        for (size_t at = 0; at < sizeof counts / sizeof *counts; at++)
            for (uint32_t setting = 0; setting < 4; setting++) {
                uint32_t order = setting / 2, model = setting % 2;
                if (load == 0 && order == FILBERTOSS_ORDER_W && model == FILBERTOSS_RELAXED)
                    continue;
                if (load == 1 && counts[at] == 1)
                    continue;
                for (size_t j = 0; j < counts[at]; j++)
                    draw_job(jobs + j * FILBERTOSS_JOB_BYTES, (load == 0 ? 0.5 : 2.0) / counts[at]);
                struct pace p = measure(counts[at], order, model);
                double ratio = p.below / p.write;
                printf("%4zu %5c %5c %-6s %6.1f %7.1f %6.2f\n", counts[at], order ? 'W' : 'V', model ? 'O' : 'R',
                       load == 0 ? "light" : "twice", p.below, p.write, ratio);
                most = ratio > most ? ratio : most;
                sum += ratio;
                cells++;
            }
    printf("below by writer: most %.2f, mean %.2f of %d lists\n", most, sum / cells, cells);
}

/* An admitted list in the relaxed model and order W needs no run. */
static void no_run(void)
{
    for (size_t j = 0; j < 16; j++)
        draw_job(jobs + j * FILBERTOSS_JOB_BYTES, 0.01);
    must(filbertoss_admit(jobs, sizeof jobs, FILBERTOSS_RELAXED));
    double start = now();
    for (int i = 0; i < CALLS; i++)
        must(filbertoss_below(jobs, sizeof jobs, FILBERTOSS_ORDER_W, FILBERTOSS_RELAXED, 0, told, sizeof told));
    double middle = now();
    for (int i = 0; i < CALLS; i++)
        must(filbertoss_admit(jobs, sizeof jobs, FILBERTOSS_RELAXED));
    double end = now();
    printf("16 jobs admitted, order W, relaxed: %.0f ns a call, of it %.0f ns the admission\n", (middle - start) / CALLS, (end - middle) / CALLS);
}

int main(void)
{
    table();
    no_run();
    return 0;
}
