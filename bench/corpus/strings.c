// Texts in memory.
static const char *const lines[4] = {"able was I ere I saw elba", "a man a plan", "", "  two   words "};
static int length(const char *s) {
    const char *p = s;
    while (*p) p++;
    return (int)(p - s);
}
int length_of(int i) { return length(lines[i & 3]); }
int words_of(int i) {
    int n = 0, in = 0;
    for (const char *p = lines[i & 3]; *p; p++) {
        if (*p == ' ')
            in = 0;
        else if (!in) {
            in = 1;
            n++;
        }
    }
    return n;
}
_Bool is_palindrome(int i) {
    const char *s = lines[i & 3];
    int a = 0, b = length(s) - 1;
    while (a < b && s[a] == s[b]) a++, b--;
    return a >= b;
}
static char buffer[24];
static char *digits(long n, int base) {
    char *p = buffer + 23;
    unsigned long m = n < 0 ? 0ul - (unsigned long)n : (unsigned long)n;
    *p = 0;
    do {
        *--p = "0123456789abcdef"[m % (unsigned)base];
        m /= (unsigned)base;
    } while (m);
    if (n < 0) *--p = '-';
    return p;
}
long digit_sum(long n, int base) {
    long sum = 0;
    for (char *p = digits(n, base); *p; p++) sum = sum * 3 + *p;
    return sum;
}
static long read_number(const char *s) {
    long n = 0;
    int minus = *s == '-';
    for (s += minus; *s >= '0' && *s <= '9'; s++) n = n * 10 + (*s - '0');
    return minus ? -n : n;
}
long there_and_back(long n) { return read_number(digits(n, 10)); }
int compared(int i, int j) {
    const char *a = lines[i & 3], *b = lines[j & 3];
    while (*a && *a == *b) a++, b++;
    return (unsigned char)*a - (unsigned char)*b;
}
