/* Lent places between guards, so that a write outside them is seen. */
#ifndef LENT_H
#define LENT_H

#include <stdint.h>
#include <stdlib.h>
#include <string.h>
#include "check.h"

enum { GUARD = 16 };

struct places {
    int32_t *all, *before, *lent;
    size_t length;
};

static inline struct places places_new(size_t length)
{
    struct places p;
    p.all = malloc((length + 2 * GUARD) * sizeof(int32_t));
    p.before = malloc((length + 2 * GUARD) * sizeof(int32_t));
    p.lent = p.all + GUARD;
    p.length = length;
    for (size_t i = 0; i < length + 2 * GUARD; i++)
        p.all[i] = (int32_t)random_bits();
    return p;
}

static inline void places_free(struct places p)
{
    free(p.all);
    free(p.before);
}

static inline void places_mark(struct places p)
{
    memcpy(p.before, p.all, (p.length + 2 * GUARD) * sizeof(int32_t));
}

/* Whether nothing has changed since the mark. */
static inline int places_same(struct places p)
{
    return memcmp(p.before, p.all, (p.length + 2 * GUARD) * sizeof(int32_t)) == 0;
}

/* Whether nothing around the lent places has. */
static inline int places_around_same(struct places p)
{
    return memcmp(p.before, p.all, GUARD * sizeof(int32_t)) == 0
        && memcmp(p.before + GUARD + p.length, p.lent + p.length, GUARD * sizeof(int32_t)) == 0;
}

#endif
