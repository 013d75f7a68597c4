/* The same rules in plain C, for the benchmark only: state by pointer, no range check in the loop. */
#ifndef PLAIN_H
#define PLAIN_H

#include <stdbool.h>
#include <stddef.h>
#include <stdint.h>

struct plain_job {
    uint32_t c, t, m, k;
};

/* Writes n choices of a fresh run, 0 to 15 or 255 for idle. The list is sound. Returns the short windows. */
uint64_t plain_fill(const struct plain_job *jobs, size_t count, uint32_t order, uint32_t model, bool spare, uint8_t *buf,
                    size_t n);

#endif
