// Sums and products in a text, by descent.
static const char *const texts[6] = {"1+2*3", "(1+2)*3", "100-7-3", "2*(3+(4-1))*5", "-8/3", "((((9))))%4+0"};
static const char *at;
static long sum(void);
static long atom(void) {
    if (*at == '-') {
        at++;
        return -atom();
    }
    if (*at == '(') {
        at++;
        long n = sum();
        if (*at == ')') at++;
        return n;
    }
    long n = 0;
    while (*at >= '0' && *at <= '9') n = n * 10 + (*at++ - '0');
    return n;
}
static long product(void) {
    long n = atom();
    for (;;) {
        char c = *at;
        if (c != '*' && c != '/' && c != '%') return n;
        at++;
        long m = atom();
        if (c == '*')
            n *= m;
        else if (m == 0)
            return -1;
        else
            n = c == '/' ? n / m : n % m;
    }
}
static long sum(void) {
    long n = product();
    while (*at == '+' || *at == '-') {
        if (*at++ == '+')
            n += product();
        else
            n -= product();
    }
    return n;
}
long value_of(unsigned i) {
    at = texts[i % 6];
    return sum();
}
int read_of(unsigned i) {
    value_of(i);
    return (int)(at - texts[i % 6]);
}
