// Greatest common divisors.
unsigned gcd(unsigned a, unsigned b) {
    while (b) {
        unsigned t = a % b;
        a = b;
        b = t;
    }
    return a;
}
long gcd_by_calls(long a, long b) { return b == 0 ? (a < 0 ? -a : a) : gcd_by_calls(b, a % b); }
unsigned long lcm(unsigned a, unsigned b) { return a && b ? (unsigned long)a / gcd(a, b) * b : 0; }
// The inverse of a modulo m, or -1 where there is none.
long inverse(long a, long m) {
    long r0 = m, r1 = a % m, s0 = 0, s1 = 1;
    while (r1 != 0) {
        long q = r0 / r1, r2 = r0 - q * r1, s2 = s0 - q * s1;
        r0 = r1;
        r1 = r2;
        s0 = s1;
        s1 = s2;
    }
    if (r0 != 1) return -1;
    return s0 < 0 ? s0 + m : s0;
}
unsigned binary_gcd(unsigned a, unsigned b) {
    int shift = 0;
    if (!a) return b;
    if (!b) return a;
    while (!((a | b) & 1)) {
        a >>= 1;
        b >>= 1;
        shift++;
    }
    while (!(a & 1)) a >>= 1;
    do {
        while (!(b & 1)) b >>= 1;
        if (a > b) {
            unsigned t = a;
            a = b;
            b = t;
        }
        b -= a;
    } while (b);
    return a << shift;
}
