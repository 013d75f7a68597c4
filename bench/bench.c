/* Nanoseconds a slot of the writer through the C entry, beside plain C, on the same lists; the outputs are
   compared byte for byte. Cells 0 to 143 are run with spare off; cells 144 to 287 are the same with spare on, which
   the C entry does not offer, so that ours is then `filbertoss_pace` of crate `pace`.

     bench                  the whole table, as text, and as bench/speed.csv's lines on request (--csv FILE)
     bench --compare        one short round: only the outputs are compared
     bench --only WHO I     cell I run once by WHO (entry or plain), for an instruction counter
     bench --admit N        N admissions of the list of 16 jobs that divides most, as far as bench/worst.c found */
#define _POSIX_C_SOURCE 200809L
#include "filbertoss.h"
#include "plain.h"

#include <stdio.h>
#include <stdlib.h>
#include <string.h>
#include <time.h>

enum { SLOTS = 20000, ROUNDS = 8, TURNS = 5, LISTS = 144, CELLS = 2 * LISTS };

/* Crate `pace`: as filbertoss_fill, with spare on exactly if the number is not 0. */
uint32_t filbertoss_pace(const uint8_t *jobs, size_t jobs_len, uint32_t order, uint32_t model, uint32_t spare,
                         uint8_t *buf, size_t buf_len, size_t offset, size_t n);

static const size_t counts[] = {1, 4, 8, 16};
static const uint32_t period_low[] = {1, 10, 200};
static const uint32_t period_high[] = {8, 100, 4096};
static const double loads[] = {0.5, 1.0, 2.0};
static const char *const load_names[] = {"light", "full", "twice"};
static const char *const period_names[] = {"1-8", "10-100", "200-4096"};

struct cell {
    size_t count;
    uint32_t order, model;
    bool spare;
    int load, period;
    struct plain_job jobs[16];
    uint8_t bytes[96];
    double share;
};

static uint64_t seed = 1;

static uint32_t draw(uint32_t low, uint32_t high)
{
    seed ^= seed << 13;
    seed ^= seed >> 7;
    seed ^= seed << 17;
    return low + (uint32_t)(seed % (high - low + 1));
}

/* A sound job whose part of the load is near `share`: the nearest of some draws. */
static struct plain_job draw_job(uint32_t low, uint32_t high, double share)
{
    struct plain_job best = {1, high, 1, 1};
    double best_off = 1e9;
    for (int i = 0; i < 200; i++) {
        struct plain_job j;
        j.t = draw(low, high);
        j.c = draw(1, j.t);
        j.k = draw(1, 40);
        double want = share * j.k * j.t / j.c;
        j.m = want < 1 ? 1 : want > j.k ? j.k : (uint32_t)(want + 0.5);
        double is = (double)j.m * j.c / ((double)j.k * j.t);
        double off = is > share ? is - share : share - is;
        if (off < best_off) {
            best_off = off;
            best = j;
        }
    }
    return best;
}

static struct cell make_cell(int index)
{
    struct cell c;
    memset(&c, 0, sizeof c);
    c.spare = index >= LISTS;
    index %= LISTS;
    c.period = index % 3;
    c.load = index / 3 % 3;
    c.model = (uint32_t)(index / 9 % 2);
    c.order = (uint32_t)(index / 18 % 2);
    c.count = counts[index / 36];
    seed = 88172645463325252u + (uint64_t)(c.count * 9 + (size_t)c.load * 3 + (size_t)c.period);
    for (size_t i = 0; i < c.count; i++) {
        struct plain_job j = draw_job(period_low[c.period], period_high[c.period], loads[c.load] / (double)c.count);
        c.jobs[i] = j;
        c.share += (double)j.m * j.c / ((double)j.k * j.t);
        uint8_t *b = c.bytes + 6 * i;
        b[0] = (uint8_t)(j.c & 255);
        b[1] = (uint8_t)(j.c >> 8);
        b[2] = (uint8_t)(j.t & 255);
        b[3] = (uint8_t)(j.t >> 8);
        b[4] = (uint8_t)j.m;
        b[5] = (uint8_t)j.k;
    }
    return c;
}

static uint8_t by_entry[SLOTS], by_plain[SLOTS];

static void run_entry(const struct cell *c, size_t n)
{
    size_t len = 6 * c->count, room = sizeof by_entry;
    uint32_t answer = c->spare ? filbertoss_pace(c->bytes, len, c->order, c->model, 1, by_entry, room, 0, n)
                               : filbertoss_fill(c->bytes, len, c->order, c->model, by_entry, room, 0, n);
    if (answer != 0) {
        fprintf(stderr, "bench: the entry refused a sound list by %u\n", answer);
        exit(1);
    }
}

static void run_plain(const struct cell *c, size_t n)
{
    plain_fill(c->jobs, c->count, c->order, c->model, c->spare, by_plain, n);
}

static void compare(const struct cell *c, int index, size_t n)
{
    run_entry(c, n);
    run_plain(c, n);
    if (memcmp(by_entry, by_plain, n) != 0) {
        fprintf(stderr, "bench: cell %d: the outputs differ\n", index);
        exit(1);
    }
}

static double once(void (*run)(const struct cell *, size_t), const struct cell *c)
{
    struct timespec a, b;
    clock_gettime(CLOCK_MONOTONIC, &a);
    run(c, SLOTS);
    clock_gettime(CLOCK_MONOTONIC, &b);
    return ((double)(b.tv_sec - a.tv_sec) * 1e9 + (double)(b.tv_nsec - a.tv_nsec)) / SLOTS;
}

/* The two in turns, and each cell in several rounds far apart, so that no burst of other work falls on one of them alone. */
static void measure(double ours[CELLS], double plain[CELLS])
{
    for (int i = 0; i < CELLS; i++)
        ours[i] = plain[i] = 1e18;
    for (int round = 0; round < ROUNDS; round++)
        for (int i = 0; i < CELLS; i++) {
            struct cell c = make_cell(i);
            compare(&c, i, SLOTS);
            for (int turn = 0; turn < TURNS; turn++) {
                double a = once(run_entry, &c), b = once(run_plain, &c);
                ours[i] = a < ours[i] ? a : ours[i];
                plain[i] = b < plain[i] ? b : plain[i];
            }
        }
}

static void sum_up(const char *which, const double ratio[LISTS])
{
    double sum = 0, least = 1e18;
    for (int i = 0; i < LISTS; i++) {
        sum += ratio[i];
        if (ratio[i] < least)
            least = ratio[i];
    }
    printf("%smean ratio %.2f, least %.2f, %d cells of %d slots, best of %d\n", which, sum / LISTS, least, LISTS, SLOTS,
           ROUNDS * TURNS);
}

static void table(FILE *csv)
{
    static double ours[CELLS], plain[CELLS], ratio[CELLS];
    measure(ours, plain);
    printf("jobs order model    spare  load  periods    ns a slot   plain C  C's time / ours\n");
    if (csv)
        fprintf(csv, "jobs,order,model,spare,load,periods,share,ns_entry,ns_plain,ratio\n");
    for (int i = 0; i < CELLS; i++) {
        struct cell c = make_cell(i);
        ratio[i] = plain[i] / ours[i];
        const char *order = c.order == 0 ? "V" : "W", *model = c.model == 0 ? "relaxed" : "original";
        const char *spare = c.spare ? "on" : "off";
        printf("%4zu %5s %-8s %5s %5s  %-9s %10.1f %9.1f %9.2f\n", c.count, order, model, spare, load_names[c.load],
               period_names[c.period], ours[i], plain[i], ratio[i]);
        if (csv)
            fprintf(csv, "%zu,%s,%s,%s,%s,%s,%.3f,%.2f,%.2f,%.3f\n", c.count, order, model, spare, load_names[c.load],
                    period_names[c.period], c.share, ours[i], plain[i], ratio[i]);
    }
    sum_up("", ratio);
    sum_up("spare on: ", ratio + LISTS);
}

/* By `worst 43`: 76 divisions. Admitted, so that no row ends it early. */
static void admit(int times)
{
    static const uint16_t t[16] = {6, 10, 19, 20, 9, 6, 5, 1, 12, 90, 5, 532, 3, 15, 3, 2};
    static const uint8_t k[16] = {1, 1, 1, 1, 35, 1, 5, 228, 1, 1, 1, 1, 42, 5, 131, 38};
    uint8_t bytes[96];
    for (size_t i = 0; i < 16; i++) {
        uint8_t *b = bytes + 6 * i;
        b[0] = 1;
        b[1] = 0;
        b[2] = (uint8_t)(t[i] & 255);
        b[3] = (uint8_t)(t[i] >> 8);
        b[4] = 1;
        b[5] = k[i];
    }
    for (int i = 0; i < times; i++) {
        uint32_t answer = filbertoss_admit(bytes, sizeof bytes, 0);
        if (answer != 0) {
            fprintf(stderr, "bench: a list that is to be admitted is refused by %u\n", answer);
            exit(1);
        }
    }
}

int main(int argc, char **argv)
{
    if (argc == 3 && strcmp(argv[1], "--admit") == 0) {
        admit(atoi(argv[2]));
        return 0;
    }
    if (argc == 2 && strcmp(argv[1], "--compare") == 0) {
        for (int i = 0; i < CELLS; i++) {
            struct cell c = make_cell(i);
            compare(&c, i, 4000);
        }
        printf("bench: %d lists, 4000 slots each, spare off and on, equal to plain C\n", LISTS);
        return 0;
    }
    if (argc == 4 && strcmp(argv[1], "--only") == 0) {
        struct cell c = make_cell(atoi(argv[3]) % CELLS);
        if (strcmp(argv[2], "entry") == 0)
            run_entry(&c, SLOTS);
        else if (strcmp(argv[2], "plain") == 0)
            run_plain(&c, SLOTS);
        return 0;
    }
    if (argc == 3 && strcmp(argv[1], "--csv") == 0) {
        FILE *csv = fopen(argv[2], "w");
        if (!csv) {
            perror(argv[2]);
            return 1;
        }
        table(csv);
        return fclose(csv) == 0 ? 0 : 1;
    }
    table(NULL);
    return 0;
}
