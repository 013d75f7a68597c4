/* The stack that a call of each entry needs: it is made on a painted stack, and the lowest byte that has
 * changed tells how far down the call went. Lists of 0 to 17 jobs, every order, model and spare, answered
 * and refused. To be linked with -Wl,-z,now, so that the loader's lookup of memcpy and memset is not counted.
 *
 * Prints the most of each entry, and ends with status 1 if one is above what the header says.
 */
#include <stdio.h>
#include <string.h>
#include <ucontext.h>

#include "filbertoss.h"

#define STACK 65536
#define PAINT 0xa5
#define JOBS 17
#define SLOTS 200

enum entry { ADMIT, FILL, BELOW, ENTRIES };
static const char *const names[ENTRIES] = {"filbertoss_admit", "filbertoss_fill", "filbertoss_below"};

/* 'filbertoss_fill less than two thirds of this number, filbertoss_admit less than an eighth' */
static const size_t limits[ENTRIES] = {FILBERTOSS_STACK_BYTES / 8, FILBERTOSS_STACK_BYTES * 2 / 3,
                                       FILBERTOSS_STACK_BYTES};

static uint8_t stack[STACK];
static uint8_t *frame; /* of the function that makes the call */
static ucontext_t outside, inside;

/* The call to be made. */
static enum entry entry;
static uint8_t jobs[JOBS * FILBERTOSS_JOB_BYTES];
static uint8_t buf[SLOTS];
static size_t jobs_len, buf_len;
static uint32_t order, model, spare, answer;

static void call(void)
{
    frame = __builtin_frame_address(0);
    if (entry == ADMIT) {
        answer = filbertoss_admit(jobs, jobs_len, model);
    } else if (entry == FILL) {
        answer = filbertoss_fill(jobs, jobs_len, order, model, buf, buf_len, 0, SLOTS);
    } else {
        answer = filbertoss_below(jobs, jobs_len, order, model, spare, buf, buf_len);
    }
}

/* Bytes below the caller's frame that the call has changed, from the lowest of them up. */
static size_t used(void)
{
    size_t low = 0;

    memset(stack, PAINT, sizeof stack);
    getcontext(&inside);
    inside.uc_stack.ss_sp = stack;
    inside.uc_stack.ss_size = sizeof stack;
    inside.uc_link = &outside;
    makecontext(&inside, call, 0);
    swapcontext(&outside, &inside);
    while (low < sizeof stack && stack[low] == PAINT) {
        low++;
    }
    return low == 0 ? sizeof stack : (size_t)(frame - (stack + low)); /* all of it, or more */
}

/* Jobs whose cycle is at most 120 slots, and whose load passes it where there are many. */
static void put_jobs(size_t count)
{
    static const uint8_t periods[] = {5, 6, 10, 12, 15, 20, 30};
    size_t i;

    for (i = 0; i < count; i++) {
        uint8_t *at = jobs + i * FILBERTOSS_JOB_BYTES;
        memset(at, 0, FILBERTOSS_JOB_BYTES);
        at[0] = (uint8_t)(1 + i % 2);
        at[2] = periods[i % sizeof periods];
        at[4] = at[5] = (uint8_t)(i % 3 == 0 ? 2 : 1);
    }
    jobs_len = count * FILBERTOSS_JOB_BYTES;
}

/* The most of an entry, over lists and settings, each with a full buffer and with one that is too short. */
static size_t most_used(unsigned *answered)
{
    size_t most = 0, bytes, count;
    unsigned setting;

    for (count = 0; count <= JOBS; count++) {
        put_jobs(count);
        for (setting = 0; setting < 16; setting++) {
            order = setting & 1;
            model = setting >> 1 & 1;
            spare = setting >> 2 & 1;
            buf_len = setting & 8 ? sizeof buf : 0;
            bytes = used();
            most = bytes > most ? bytes : most;
            *answered += answer == FILBERTOSS_OK;
        }
    }
    return most;
}

int main(void)
{
    int status = 0;

    for (entry = ADMIT; entry < ENTRIES; entry++) {
        unsigned answered = 0;
        size_t most = most_used(&answered);
        printf("%s: %lu bytes of stack, %u calls answered\n", names[entry], (unsigned long)most, answered);
        status |= most > limits[entry] || answered == 0;
    }
    return status;
}
