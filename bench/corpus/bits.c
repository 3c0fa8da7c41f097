// Bits of words.
typedef unsigned long word;
int ones(word x) {
    int n = 0;
    for (; x; x >>= 1) n += (int)(x & 1);
    return n;
}
unsigned char turned(unsigned char x) {
    unsigned char y = 0;
    for (int i = 0; i < 8; i++)
        if (x >> i & 1) y |= (unsigned char)(128 >> i);
    return y;
}
word gray(word n) { return n ^ n >> 1; }
word from_gray(word g) {
    for (int k = 32; k; k >>= 1) g ^= g >> k;
    return g;
}
word spread(unsigned short x, unsigned short y) {
    word all = 0;
    for (int i = 0; i < 16; i++) {
        all |= (word)(x >> i & 1) << 2 * i;
        all |= (word)(y >> i & 1) << (2 * i + 1);
    }
    return all;
}
int highest(word x) {
    int n = -1;
    while (x) {
        x >>= 1;
        n++;
    }
    return n;
}
long sign_of(long x) { return (x > 0) - (x < 0); }
long magnitude(long x) {
    long m = x >> 63;
    return (x ^ m) - m;
}
word field(word x, unsigned from, unsigned many) { return many >= 64 ? x >> (from & 63) : x >> (from & 63) & ((1ul << many) - 1); }
_Bool is_power(word x) { return ones(x) == 1; }
