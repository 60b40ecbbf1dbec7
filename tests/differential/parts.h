/* The parts of the run. Each goes on for so many rounds, or ends the program at what differs. */
#ifndef PARTS_H
#define PARTS_H

void lengths(void);             /* band and channel counts, memory lengths, prepare */
void histories(int rounds);     /* long signals in random cuts, from prepared memory */
void wild_memories(int rounds); /* any numbers in accepted memory */
void sides(int rounds);         /* two channels beside one, and exchanged */
void crossovers(int rounds);    /* both feeds, plain calls between, what the feeds add up to */
void block_refusals(int rounds);
void crossover_refusals(int rounds);
void bad_samples(void);         /* one at every place of a block, and more behind it */
void gain_commands(long patterns);
void samples(void);
void float_calls(long patterns); /* floats of every exponent, every tie, every sample as a float, any patterns */
void float_blocks(int rounds);
void headers(int rounds);

#endif
