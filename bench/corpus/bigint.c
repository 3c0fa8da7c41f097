// Numbers of many digits.
typedef unsigned u32;
typedef unsigned long u64;
static u32 a[16], b[16], c[16];
static void set(u32 *x, u64 n) {
    for (int i = 0; i < 16; i++) x[i] = 0;
    x[0] = (u32)n;
    x[1] = (u32)(n >> 32);
}
static void add(const u32 *x, const u32 *y, u32 *to) {
    u64 carry = 0;
    for (int i = 0; i < 16; i++) {
        carry += (u64)x[i] + y[i];
        to[i] = (u32)carry;
        carry >>= 32;
    }
}
static void times(u32 *x, u32 k) {
    u64 carry = 0;
    for (int i = 0; i < 16; i++) {
        carry += (u64)x[i] * k;
        x[i] = (u32)carry;
        carry >>= 32;
    }
}
static u32 divided(u32 *x, u32 k) {
    u64 rest = 0;
    for (int i = 15; i >= 0; i--) {
        rest = rest << 32 | x[i];
        x[i] = (u32)(rest / k);
        rest %= k;
    }
    return (u32)rest;
}
static int is_zero(const u32 *x) {
    for (int i = 0; i < 16; i++)
        if (x[i]) return 0;
    return 1;
}
int digits_of_factorial(u32 n) {
    int sum = 0;
    set(a, 1);
    for (u32 k = 2; k <= n; k++) times(a, k);
    while (!is_zero(a)) sum += (int)divided(a, 10);
    return sum;
}
u32 fibonacci_modulo(int n, u32 m) {
    set(a, 0);
    set(b, 1);
    for (int i = 0; i < n; i++) {
        add(a, b, c);
        for (int k = 0; k < 16; k++) a[k] = b[k], b[k] = c[k];
    }
    return divided(a, m);
}
// The high half of a product of 64 bits by four products of 32.
u64 high_product(u64 x, u64 y) {
    u64 x0 = (u32)x, x1 = x >> 32, y0 = (u32)y, y1 = y >> 32;
    u64 p00 = x0 * y0, p01 = x0 * y1, p10 = x1 * y0, p11 = x1 * y1;
    u64 middle = (p00 >> 32) + (u32)p01 + (u32)p10;
    return p11 + (p01 >> 32) + (p10 >> 32) + (middle >> 32);
}
