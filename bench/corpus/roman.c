// Roman numerals.
static const short values[13] = {1000, 900, 500, 400, 100, 90, 50, 40, 10, 9, 5, 4, 1};
static const char *const signs[13] = {"M", "CM", "D", "CD", "C", "XC", "L", "XL", "X", "IX", "V", "IV", "I"};
static char text[20];
static int written(int n) {
    int to = 0;
    for (int i = 0; i < 13; i++)
        while (n >= values[i]) {
            for (const char *p = signs[i]; *p; p++) text[to++] = *p;
            n -= values[i];
        }
    text[to] = 0;
    return to;
}
static int digit(char c) {
    switch (c) {
    case 'I': return 1;
    case 'V': return 5;
    case 'X': return 10;
    case 'L': return 50;
    case 'C': return 100;
    case 'D': return 500;
    case 'M': return 1000;
    }
    return 0;
}
int length_of(int n) { return written(n); }
int again(int n) {
    int sum = 0;
    written(n);
    for (const char *p = text; *p; p++) {
        int d = digit(*p);
        sum += d < digit(p[1]) ? -d : d;
    }
    return sum;
}
long spelled(int n) {
    long all = 0;
    written(n);
    for (const char *p = text; *p; p++) all = all * 29 + (*p - 'A' + 1);
    return all;
}
