#include "random.h"

static uint32_t state;

void random_begin(uint32_t seed)
{
    state = seed == 0 ? 1 : seed;
}

uint32_t random_number(void)
{
    state ^= state << 13;
    state ^= state >> 17;
    state ^= state << 5;
    return state;
}

uint32_t random_below(uint32_t limit)
{
    return (random_number() >> 16) * limit >> 16;
}

bool random_once_in(uint32_t times)
{
    return random_below(times) == 0;
}

/* Sums wrap as unsigned numbers; a limit is far from the ends of the range. */
int32_t random_near(int32_t least, int32_t greatest)
{
    uint32_t span = (uint32_t)greatest - (uint32_t)least;

    switch (random_below(32)) {
    case 0:
        return least;
    case 1:
        return greatest;
    case 2:
        return (int32_t)((uint32_t)least - 1);
    case 3:
        return (int32_t)((uint32_t)greatest + 1);
    case 4:
        return (int32_t)random_number();
    default:
        return (int32_t)((uint32_t)least + random_number() % (span + 1));
    }
}

void random_bytes(uint8_t *bytes, size_t length)
{
    for (size_t i = 0; i < length; i++)
        bytes[i] = (uint8_t)random_below(256);
}
