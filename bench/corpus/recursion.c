// Functions that call themselves and each other.
static int ackermann(int m, int n) { return m == 0 ? n + 1 : n == 0 ? ackermann(m - 1, 1) : ackermann(m - 1, ackermann(m, n - 1)); }
int ack(int m, int n) { return ackermann(m, n); }
static _Bool is_odd(unsigned n);
_Bool is_even(unsigned n) { return n == 0 || is_odd(n - 1); }
static _Bool is_odd(unsigned n) { return n != 0 && is_even(n - 1); }
static unsigned long moves;
static void hanoi(int n, int from, int to, int by) {
    if (n == 0) return;
    hanoi(n - 1, from, by, to);
    moves = moves * 3 + (unsigned long)from - (unsigned long)to;
    hanoi(n - 1, by, to, from);
}
unsigned long towers(int n) {
    moves = 0;
    hanoi(n, 0, 2, 1);
    return moves;
}
long tribonacci(int n) { return n < 2 ? 0 : n == 2 ? 1 : tribonacci(n - 1) + tribonacci(n - 2) + tribonacci(n - 3); }
int josephus(int n, int k) { return n == 1 ? 0 : (josephus(n - 1, k) + k) % n; }
static int hofstadter_m(int n);
int hofstadter_f(int n) { return n == 0 ? 1 : n - hofstadter_m(hofstadter_f(n - 1)); }
static int hofstadter_m(int n) { return n == 0 ? 0 : n - hofstadter_f(hofstadter_m(n - 1)); }
unsigned long power(unsigned long base, unsigned n) {
    if (n == 0) return 1;
    unsigned long half = power(base, n / 2);
    return n & 1 ? half * half * base : half * half;
}
int sum_of_eight(int a, long b, short c, signed char d, unsigned e, unsigned short f, unsigned char g, _Bool h) {
    return (int)(a + b * 2 + c * 3 + d * 4 + (long)e * 5 + f * 6 + g * 7 + h * 8);
}
int through(int n) { return n <= 0 ? 0 : sum_of_eight(n, -n, (short)n, (signed char)-n, (unsigned)n, 3, 200, 1) + through(n - 1); }
