/* Writes the largest sheet that there is, and a true one: as many places, stages, blocks and offices as a sheet may have. A stage of 1
   furlong leads from each place to the next, in a ring; seven more of 65,535 furlongs leave it, by which no shortest road goes. The
   gazetteer numbers go down from the largest word: place p has 4,294,967,295 - p. */

#include <atlas.h>
#include <limits.h>
#include <stdio.h>

#define SIDE 32
#define LEAVING (ATLAS_STAGES_MOST / ATLAS_PLACES_MOST)
#define BLOCKS_EACH (ATLAS_BLOCKS_MOST / ATLAS_PLACES_MOST)
#define OFFICE_PLACES 8

static void put(unsigned int word)
{
    unsigned int shift;
    for (shift = 0; shift < 32; shift += 8)
        putchar((int)(word >> shift & 255));
}

static unsigned int next(unsigned int place, unsigned int steps)
{
    return (place + steps) % ATLAS_PLACES_MOST;
}

/* The stages that leave a place, ascending by head. */
static void put_stages(unsigned int place)
{
    unsigned int head;
    for (head = 0; head < ATLAS_PLACES_MOST; head++) {
        unsigned int steps = next(head, ATLAS_PLACES_MOST - place);
        if (steps >= 1 && steps <= LEAVING) {
            put(place);
            put(head);
            put(steps == 1 ? 1 : 65535);
        }
    }
}

/* Four cells to a block, over all places; ratios that enclose every length. */
static void put_blocks(unsigned int place)
{
    unsigned int steps, block, colour = 0;
    for (steps = 2; steps <= LEAVING; steps++)
        colour += next(place, steps) < next(place, 1);
    for (block = 0; block < BLOCKS_EACH; block++) {
        put(place);
        put(4 * block);
        put(1);
        put(colour);
        put(0);
        put(UINT_MAX);
    }
}

int main(void)
{
    unsigned int i;
    put(ATLAS_PLACES_MOST);
    for (i = 0; i < ATLAS_PLACES_MOST; i++) {
        put(i % SIDE);
        put(i / SIDE);
        put(UINT_MAX - i);
    }
    put(ATLAS_STAGES_MOST);
    for (i = 0; i < ATLAS_PLACES_MOST; i++)
        put_stages(i);
    put(ATLAS_BLOCKS_MOST);
    for (i = 0; i < ATLAS_PLACES_MOST; i++)
        put_blocks(i);
    put(ATLAS_OFFICES_MOST);
    for (i = 0; i < ATLAS_OFFICES_MOST; i++)
        put(i % OFFICE_PLACES);
    return fflush(stdout) == 0 && !ferror(stdout) ? 0 : 1;
}
