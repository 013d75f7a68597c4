/* Looks for the list of 16 jobs whose admission divides most often: simulated annealing over the windows kT,
   from some seeds. What it prints is the most that it found, no proof that there is no more.

     worst SEED...          for each seed the count, and T and k of the 16 jobs */
#include <math.h>
#include <stdint.h>
#include <stdio.h>
#include <stdlib.h>

enum { JOBS = 16, RESTARTS = 100, MOVES = 60000, CYCLE_MOST = 16777216 };

struct windows {
    uint32_t t[JOBS], k[JOBS];
};

static uint64_t seed;

static uint32_t draw(uint32_t low, uint32_t high)
{
    seed ^= seed << 13;
    seed ^= seed >> 7;
    seed ^= seed << 17;
    return low + (uint32_t)(seed % (high - low + 1));
}

/* Remainders, one division by the divisor a job, and one by the window a job if the cycle is within its limit. */
static int divisions(const struct windows *w)
{
    uint64_t cycle = 1;
    int n = 0;
    for (int i = 0; i < JOBS; i++) {
        uint64_t window = (uint64_t)w->k[i] * w->t[i], x = cycle, y = window;
        for (; y != 0; n++) {
            uint64_t rest = x % y;
            x = y;
            y = rest;
        }
        cycle = cycle / x * window;
        n++;
        if (cycle > CYCLE_MOST)
            return n;
    }
    return n + JOBS;
}

static void move(struct windows *w)
{
    int i = (int)draw(0, JOBS - 1), j = (int)draw(0, JOBS - 1);
    uint32_t t = w->t[i], k = w->k[i], factor = draw(2, 5);
    switch (draw(0, 4)) {
    case 0:
        w->k[i] = draw(1, 255);
        break;
    case 1:
        w->t[i] = draw(1, 4096);
        break;
    case 2:
        w->t[i] = w->t[j];
        w->k[i] = w->k[j];
        w->t[j] = t;
        w->k[j] = k;
        break;
    case 3:
        if (t * factor <= 4096)
            w->t[i] = t * factor;
        break;
    default:
        if (t % factor == 0)
            w->t[i] = t / factor;
    }
}

static struct windows anneal(void)
{
    struct windows here, best;
    for (int i = 0; i < JOBS; i++) {
        here.t[i] = draw(1, 4);
        here.k[i] = 1;
    }
    best = here;
    for (int left = MOVES; left > 0; left--) {
        struct windows next = here;
        move(&next);
        int more = divisions(&next) - divisions(&here);
        if (more >= 0 || draw(0, 999) < 1000 * exp(more * (MOVES / 2.0) / left))
            here = next;
        if (divisions(&here) > divisions(&best))
            best = here;
    }
    return best;
}

int main(int argc, char **argv)
{
    for (int a = 1; a < argc; a++) {
        seed = 88172645463325252u + 7919 * strtoull(argv[a], NULL, 10);
        struct windows best = anneal();
        for (int i = 1; i < RESTARTS; i++) {
            struct windows w = anneal();
            if (divisions(&w) > divisions(&best))
                best = w;
        }
        printf("seed %s: %d divisions, T k:", argv[a], divisions(&best));
        for (int i = 0; i < JOBS; i++)
            printf(" %u %u,", best.t[i], best.k[i]);
        printf("\n");
    }
    return 0;
}
