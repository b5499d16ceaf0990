/* A shared library that profile.c loads while it profiles. */
unsigned work(unsigned seed);

static unsigned step(unsigned seed, unsigned i) { return (seed ^ i) * 2654435761u; }

unsigned work(unsigned seed) {
    for (unsigned i = 0; i < 700; i++) {
        seed = step(seed, i);
        if (seed % 3 == 0) seed += i;
    }
    return seed;
}
