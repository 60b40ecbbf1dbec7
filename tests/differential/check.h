/* A seeded generator, and a check that names what failed and the seed that repeats it. */
#ifndef CHECK_H
#define CHECK_H

#include <stdint.h>
#include <stdio.h>
#include <stdlib.h>

extern uint64_t seed_of_run, random_state;

/* splitmix64 */
static inline uint64_t random_bits(void)
{
    uint64_t z = (random_state += 0x9e3779b97f4a7c15u);
    z = (z ^ (z >> 30)) * 0xbf58476d1ce4e5b9u;
    z = (z ^ (z >> 27)) * 0x94d049bb133111ebu;
    return z ^ (z >> 31);
}

/* 0 to below - 1 */
static inline uint32_t random_below(uint32_t below)
{
    return (uint32_t)((random_bits() >> 32) * below >> 32);
}

static inline int32_t one_of(const int32_t *list, uint32_t count)
{
    return list[random_below(count)];
}

#define CHECK(holds, ...)                                                             \
    do {                                                                              \
        if (!(holds)) {                                                               \
            fprintf(stderr, "%s:%d: %s: ", __FILE__, __LINE__, #holds);               \
            fprintf(stderr, __VA_ARGS__);                                             \
            fprintf(stderr, "\nrepeat with --seed %llu\n", (unsigned long long)seed_of_run); \
            exit(1);                                                                  \
        }                                                                             \
    } while (0)

/* A refusal with its place, and one that has none. */
#define IS_REFUSAL_AT(answer, number, place)                                          \
    CHECK((answer) == INT64_MIN + (number) + 256 * (int64_t)(place),                  \
          "answered %lld, not refused %d at %lld", (long long)(answer), (int)(number), (long long)(place))

#define IS_REFUSAL(answer, number) IS_REFUSAL_AT(answer, number, 0)

#endif
