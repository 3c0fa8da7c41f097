// Sequences that look like chance.
typedef unsigned long word;
word xorshift(word x, int times) {
    while (times-- > 0) {
        x ^= x << 13;
        x ^= x >> 7;
        x ^= x << 17;
    }
    return x;
}
unsigned short lfsr(unsigned short x, int times) {
    for (int i = 0; i < times; i++) {
        unsigned bit = (x ^ x >> 2 ^ x >> 3 ^ x >> 5) & 1u;
        x >>= 1;
        if (bit) x ^= 0xB400;
    }
    return x;
}
int period(unsigned a, unsigned c, unsigned modulus) {
    unsigned char seen[64];
    unsigned x = 0;
    int n = 0;
    for (int i = 0; i < 64; i++) seen[i] = 0;
    while (!seen[x]) {
        seen[x] = 1;
        x = (a * x + c) % modulus;
        n++;
    }
    return n;
}
static word state = 42;
static unsigned drawn(void) {
    state = state * 6364136223846793005ul + 1442695040888963407ul;
    return (unsigned)(state >> 33);
}
long counted(int rolls, word seed) {
    int faces[6] = {0, 0, 0, 0, 0, 0};
    long all = 0;
    state = seed;
    for (int i = 0; i < rolls; i++) faces[drawn() % 6]++;
    for (int i = 0; i < 6; i++) all = all * 100 + faces[i];
    return all;
}
unsigned first_of_state(void) { return drawn(); }
