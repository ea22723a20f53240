/* Random numbers from a fixed seed (splitmix64). */
#include "random.h"

static uint64_t state;

void random_seed(uint64_t seed)
{
    state = seed;
}

uint64_t random_next(void)
{
    uint64_t z = state += UINT64_C(0x9e3779b97f4a7c15);
    z = (z ^ (z >> 30)) * UINT64_C(0xbf58476d1ce4e5b9);
    z = (z ^ (z >> 27)) * UINT64_C(0x94d049bb133111eb);
    return z ^ (z >> 31);
}

uint32_t below(uint32_t n)
{
    return n == 0 ? 0 : (uint32_t)((random_next() >> 32) * n >> 32);
}

int once_in(uint32_t n)
{
    return below(n) == 0;
}
