/* The rules of one slot as a C programmer would write them down. */
#include "plain.h"

#include <string.h>

struct place {
    struct plain_job job;
    uint32_t e, p, u, s, v;
    bool tag;
};

struct state {
    uint32_t order, model;
    bool spare;
    uint32_t clock;
    size_t count;
    struct place places[16];
    uint32_t given, idle;
    uint64_t tags, shorts;
};

/* m', or less than 0 where spare slots finished more than m: whoever asks, asks whether it is above 0. */
static int64_t owed(const struct state *st, const struct place *q)
{
    uint32_t done = st->model == 0 ? q->u / q->job.c : q->s;
    return (int64_t)q->job.m - done;
}

static bool eligible(const struct state *st, const struct place *q)
{
    if (st->model == 0)
        return q->u < q->job.m * q->job.c && q->u < q->p * q->job.c;
    return q->s < q->job.m && q->v < q->job.c;
}

/* Has its m and still has an unserved instance come due. */
static bool waiting(const struct state *st, const struct place *q)
{
    if (owed(st, q) > 0)
        return false;
    if (st->model == 0)
        return q->u < q->p * q->job.c;
    return q->s < q->p && q->v < q->job.c;
}

/* The slot, given to the place, finishes an instance. */
static bool finishes(const struct state *st, const struct place *q)
{
    return st->model == 0 ? (q->u + 1) % q->job.c == 0 : q->v + 1 == q->job.c;
}

static int64_t window_left(const struct place *q)
{
    return (int64_t)(q->job.k - q->p + 1) * q->job.t;
}

static size_t choose(const struct state *st)
{
    size_t best = 16;
    int64_t best_num = 0, best_den = 1;
    for (size_t i = 0; i < st->count; i++) {
        const struct place *q = &st->places[i];
        if (!eligible(st, q))
            continue;
        int64_t num, den;
        if (st->order == 0) {
            den = owed(st, q);
            num = window_left(q) - (int64_t)q->e * den;
        } else {
            den = 1;
            num = window_left(q) - q->e;
        }
        if (best == 16 || num * best_den < best_num * den) {
            best = i;
            best_num = num;
            best_den = den;
        }
    }
    return best;
}

static size_t choose_spare(const struct state *st)
{
    size_t best = 16;
    int64_t best_end = 0;
    for (size_t i = 0; i < st->count; i++) {
        const struct place *q = &st->places[i];
        if (!waiting(st, q))
            continue;
        int64_t end = window_left(q) - q->e;
        if (best == 16 || end < best_end) {
            best = i;
            best_end = end;
        }
    }
    return best;
}

static void move_on(struct state *st, struct place *q, bool chosen)
{
    int64_t lacking = owed(st, q);
    if (lacking > 0 && window_left(q) - (int64_t)q->e * lacking <= lacking && !q->tag && !(chosen && finishes(st, q))) {
        q->tag = true;
        st->tags++;
    }
    if (chosen) {
        if (st->model == 0) {
            q->u++;
        } else {
            q->v++;
            if (q->v == q->job.c)
                q->s++;
        }
    }
    if (++q->e < q->job.t)
        return;
    q->e = 0;
    q->v = 0;
    if (q->p < q->job.k) {
        q->p++;
        return;
    }
    if (owed(st, q) > 0)
        st->shorts++;
    q->p = 1;
    q->u = 0;
    q->s = 0;
    q->tag = false;
}

static uint8_t slot(struct state *st)
{
    size_t chosen = choose(st);
    if (chosen == 16 && st->spare)
        chosen = choose_spare(st);
    for (size_t i = 0; i < st->count; i++)
        move_on(st, &st->places[i], i == chosen);
    st->clock++;
    if (chosen == 16) {
        st->idle++;
        return 255;
    }
    st->given++;
    return (uint8_t)chosen;
}

uint64_t plain_fill(const struct plain_job *jobs, size_t count, uint32_t order, uint32_t model, bool spare, uint8_t *buf,
                    size_t n)
{
    struct state st;
    memset(&st, 0, sizeof st);
    st.order = order;
    st.model = model;
    st.spare = spare;
    st.count = count;
    for (size_t i = 0; i < count; i++) {
        st.places[i].job = jobs[i];
        st.places[i].p = 1;
    }
    for (size_t i = 0; i < n; i++)
        buf[i] = slot(&st);
    return st.shorts;
}
