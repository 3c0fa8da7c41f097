// Loops, switches, shifts and comparisons of every width.
typedef unsigned long size;
unsigned gcd(unsigned a, unsigned b) { while (b) { unsigned t = a % b; a = b; b = t; } return a; }
void sort(int *a, int n) { for (int i = 1; i < n; i++) { int k = a[i], j = i - 1; while (j >= 0 && a[j] > k) { a[j + 1] = a[j]; j--; } a[j + 1] = k; } }
void clear(char *to, size n) { __builtin_memset(to, 0, n); }
void move(char *to, const char *from, size n) { __builtin_memmove(to, from, n); }
int clamp(int x) { return x < 0 ? 0 : x > 255 ? 255 : x; }
long magnitude(long x) { return x < 0 ? -x : x; }
unsigned char rotate(unsigned char x, int k) { return (unsigned char)(x << (k & 7) | x >> ((8 - k) & 7)); }
short narrow(long x) { return (short)(x >> 3); }
unsigned long wide(int x, unsigned char y) { return (unsigned long)x * y; }
int kind(int c) { switch (c) { case 'a': case 'e': case 'i': return 1; case '0': return 2; case -1: return 4; case 1000000: return 5; default: return 0; } }
int both(_Bool a, _Bool b) { return (a && b) | ((a != b) << 1); }
long collatz(long n) { long k = 0; while (n != 1) { n = n & 1 ? 3 * n + 1 : n / 2; k++; } return k; }
int near(const void *p, const void *q) { return p < q ? -1 : p > q; }
__attribute__((noinline)) static int ack(int m, int n) { return m == 0 ? n + 1 : n == 0 ? ack(m - 1, 1) : ack(m - 1, ack(m, n - 1)); }
int deep(void) { return ack(2, 3); }
_Noreturn void stop(void) { for (;;) { } }
void assumed(int *p, int n) { if (n < 1) __builtin_unreachable(); for (int i = 0; i < n; i++) p[i] += i; }
