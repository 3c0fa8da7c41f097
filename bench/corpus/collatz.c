// Walks of halving and of three times and one.
long steps(long n) {
    long k = 0;
    while (n != 1) {
        n = n & 1 ? 3 * n + 1 : n / 2;
        k++;
    }
    return k;
}
unsigned long highest(unsigned long n) {
    unsigned long top = n;
    for (; n != 1; n = n % 2 ? 3 * n + 1 : n >> 1)
        if (n > top) top = n;
    return top;
}
int longest_below(int end) {
    int best = 1;
    long most = 0;
    for (int i = 1; i < end; i++) {
        long k = steps(i);
        if (k > most) {
            most = k;
            best = i;
        }
    }
    return best;
}
