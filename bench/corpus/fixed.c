// Numbers with sixteen bits behind the point.
typedef int fixed;
static fixed by(fixed a, fixed b) { return (fixed)((long)a * b >> 16); }
static fixed over(fixed a, fixed b) { return (fixed)(((long)a << 16) / b); }
fixed square_root(fixed x) {
    if (x <= 0) return 0;
    fixed guess = x > 65536 ? x / 2 : 65536;
    for (int i = 0; i < 20; i++) guess = (guess + over(x, guess)) / 2;
    return guess;
}
// The sine by its series, for -pi to pi.
fixed sine(fixed x) {
    fixed square = by(x, x), term = x, sum = x;
    for (int k = 2; k < 14; k += 2) {
        term = -by(term, square) / (k * (k + 1));
        sum += term;
    }
    return sum;
}
fixed exponential(fixed x) {
    fixed term = 65536, sum = 65536;
    for (int k = 1; k < 12; k++) {
        term = by(term, x) / k;
        sum += term;
    }
    return sum;
}
short saturated(short a, short b) {
    int sum = a + b;
    return (short)(sum > 30000 ? 30000 : sum < -30000 ? -30000 : sum);
}
unsigned isqrt(unsigned n) {
    unsigned r = 0, bit = 1u << 30;
    while (bit > n) bit >>= 2;
    while (bit) {
        if (n >= r + bit) {
            n -= r + bit;
            r = (r >> 1) + bit;
        } else
            r >>= 1;
        bit >>= 2;
    }
    return r;
}
