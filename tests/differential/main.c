/* The archive against models written from the rules. Silent but for the seed; --long goes on for longer. */
#include <string.h>
#include <time.h>
#include "check.h"
#include "parts.h"

uint64_t seed_of_run, random_state;

int main(int argc, char **argv)
{
    int more = 1;
    seed_of_run = (uint64_t)time(NULL);
    for (int i = 1; i < argc; i++) {
        if (strcmp(argv[i], "--long") == 0)
            more = 20;
        else if (strcmp(argv[i], "--seed") == 0 && i + 1 < argc)
            seed_of_run = strtoull(argv[++i], NULL, 10);
        else {
            fprintf(stderr, "usage: %s [--long] [--seed N]\n", argv[0]);
            return 2;
        }
    }
    printf("differential: seed %llu\n", (unsigned long long)seed_of_run);
    fflush(stdout);
    random_state = seed_of_run;
    lengths();
    histories(35 * more);
    wild_memories(60 * more);
    sides(10 * more);
    crossovers(4 * more);
    block_refusals(20 * more);
    crossover_refusals(more);
    bad_samples();
    gain_commands(8000000L * more);
    samples();
    float_calls(1000000L * more);
    float_blocks(2000 * more);
    headers(100000 * more);
    return 0;
}
