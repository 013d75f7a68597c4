/* One second of the board, from C: is the list admitted, and who gets which slot? And in the binned
 * mode, which job can fall below its stated part?
 *
 * Slots are 250 microseconds, so a second has 4,000. Build it as README.md says.
 */
#include <stdio.h>

#include "filbertoss.h"

#define SLOTS 4000
#define SHOWN 40

/* As wide as its bytes, so that a number that does not fit is the compiler's to tell. */
struct job {
    const char *name;
    uint16_t c, t;
    uint8_t m, k;
};

/* The board's jobs: slots for an instance, slots in a period, and how many of how many periods. */
static const struct job board[] = {
    {"gyro", 1, 4, 1, 1},     /* every millisecond, never missed */
    {"rows", 3, 10, 4, 5},    /* a band of rows every 2.5 ms, four of five */
    {"preview", 8, 40, 1, 2}, /* every 10 ms, every other one will do */
    {"log", 5, 100, 3, 4},    /* every 25 ms, three of four */
};

#define JOBS (sizeof board / sizeof board[0])

/* The binned mode, in which rows come faster: sheets/binned.txt. */
static const struct job binned[] = {
    {.c = 1, .t = 3, .m = 1, .k = 1},
    {.c = 2, .t = 14, .m = 3, .k = 4},
    {.c = 3, .t = 21, .m = 1, .k = 1},
    {.c = 1, .t = 28, .m = 1, .k = 2},
};

#define BINNED (sizeof binned / sizeof binned[0])

/* A job's six bytes: C and T low byte first, then m and k. */
static void put_job(uint8_t *at, const struct job *job)
{
    at[0] = (uint8_t)(job->c & 0xff);
    at[1] = (uint8_t)(job->c >> 8);
    at[2] = (uint8_t)(job->t & 0xff);
    at[3] = (uint8_t)(job->t >> 8);
    at[4] = job->m;
    at[5] = job->k;
}

/* 32 bits, low byte first. */
static unsigned long number_at(const uint8_t *at)
{
    return at[0] | (unsigned long)at[1] << 8 | (unsigned long)at[2] << 16 | (unsigned long)at[3] << 24;
}

/* Each job of the binned list, in window order with spare off. */
static int show_binned(void)
{
    uint8_t jobs[BINNED * FILBERTOSS_JOB_BYTES], told[BINNED * FILBERTOSS_BELOW_BYTES];
    uint32_t answer;
    size_t i;

    for (i = 0; i < BINNED; i++) {
        put_job(jobs + i * FILBERTOSS_JOB_BYTES, &binned[i]);
    }
    answer = filbertoss_below(jobs, sizeof jobs, FILBERTOSS_ORDER_W, FILBERTOSS_RELAXED,
                              FILBERTOSS_SPARE_OFF, told, sizeof told);
    if (answer != FILBERTOSS_OK) {
        printf("no answer: refusal %lu\n", (unsigned long)answer);
        return 1;
    }
    printf("binned\n");
    for (i = 0; i < BINNED; i++) {
        const uint8_t *at = told + i * FILBERTOSS_BELOW_BYTES;
        printf("job %lu %2lu of %2lu windows short", (unsigned long)i, number_at(at + 4), number_at(at));
        if (number_at(at + 8) == FILBERTOSS_NEVER) {
            printf(", never\n");
        } else {
            printf(", first in slot %lu\n", number_at(at + 8));
        }
    }
    return 0;
}

int main(void)
{
    static uint8_t slots[SLOTS];
    uint8_t jobs[JOBS * FILBERTOSS_JOB_BYTES];
    unsigned long got[JOBS] = {0};
    unsigned long idle = 0;
    uint32_t answer;
    size_t i;

    for (i = 0; i < JOBS; i++) {
        put_job(jobs + i * FILBERTOSS_JOB_BYTES, &board[i]);
    }

    answer = filbertoss_admit(jobs, sizeof jobs, FILBERTOSS_RELAXED);
    if (answer == FILBERTOSS_OK) {
        printf("admitted\n");
    } else {
        printf("not admitted: refusal %lu\n", (unsigned long)answer);
    }

    answer = filbertoss_fill(jobs, sizeof jobs, FILBERTOSS_ORDER_W, FILBERTOSS_RELAXED, slots,
                             sizeof slots, 0, SLOTS);
    if (answer != FILBERTOSS_OK) {
        printf("no timetable: refusal %lu\n", (unsigned long)answer);
        return 1;
    }

    for (i = 0; i < SLOTS; i++) {
        if (slots[i] == FILBERTOSS_IDLE) {
            idle++;
        } else {
            got[slots[i]]++;
        }
    }
    for (i = 0; i < JOBS; i++) {
        printf("job %lu %-7s %4lu slots\n", (unsigned long)i, board[i].name, got[i]);
    }
    printf("idle          %4lu slots\n", idle);

    printf("first %d:", SHOWN);
    for (i = 0; i < SHOWN; i++) {
        if (slots[i] == FILBERTOSS_IDLE) {
            printf(" -");
        } else {
            printf(" %u", (unsigned)slots[i]);
        }
    }
    printf("\n");

    return show_binned();
}
