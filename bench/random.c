#include "random.h"

static uint64_t state = 1;

/* Seeds lie close together and 0 is one of them: they are mixed (splitmix64), and xorshift never starts from 0. */
void random_seed(uint64_t seed)
{
    uint64_t z = seed + 0x9E3779B97F4A7C15u;
    z = (z ^ z >> 30) * 0xBF58476D1CE4E5B9u;
    z = (z ^ z >> 27) * 0x94D049BB133111EBu;
    state = z ^ z >> 31;
    if (!state) state = 1;
}

/* xorshift64*: the product hides the weak low bits */
uint64_t random64(void)
{
    state ^= state >> 12;
    state ^= state << 25;
    state ^= state >> 27;
    return state * 0x2545F4914F6CDD1Du;
}

size_t random_below(size_t n) { return n ? (size_t)((random64() >> 16) % n) : 0; }

size_t random_between(size_t least, size_t most)
{
    return most < least ? least : least + random_below(most - least + 1);
}

int random_one_in(size_t n) { return random_below(n) == 0; }

void random_bytes(uint8_t *bytes, size_t n)
{
    uint64_t r = 0;
    for (size_t i = 0; i < n; i++) {
        if (i % 8 == 0) r = random64();
        bytes[i] = (uint8_t)(r >> i % 8 * 8);
    }
}

size_t random_other_length(size_t n)
{
    size_t length;
    do {
        switch (random_below(6)) {
        case 0: length = 0; break;
        case 1: length = n - 1; break;
        case 2: length = n + 1; break;
        case 3: length = 2 * n; break;
        case 4: length = 1; break;
        default: length = random_below(2 * n + 2); break;
        }
    } while (length == n || length > 2 * n + 2);
    return length;
}
