// Base 64, there and back.
static const char alphabet[] = "ABCDEFGHIJKLMNOPQRSTUVWXYZabcdefghijklmnopqrstuvwxyz0123456789+/";
static unsigned char in[32], back[32];
static char coded[48];
static void fill(int n, unsigned x) {
    for (int i = 0; i < n; i++) {
        in[i] = (unsigned char)(x >> 8);
        x = x * 69069u + 5u;
    }
}
static int encode(int n) {
    int to = 0;
    for (int i = 0; i < n; i += 3) {
        unsigned x = (unsigned)in[i] << 16;
        if (i + 1 < n) x |= (unsigned)in[i + 1] << 8;
        if (i + 2 < n) x |= in[i + 2];
        coded[to++] = alphabet[x >> 18];
        coded[to++] = alphabet[x >> 12 & 63];
        coded[to++] = i + 1 < n ? alphabet[x >> 6 & 63] : '=';
        coded[to++] = i + 2 < n ? alphabet[x & 63] : '=';
    }
    return to;
}
static int value(char c) {
    if (c >= 'A' && c <= 'Z') return c - 'A';
    if (c >= 'a' && c <= 'z') return c - 'a' + 26;
    if (c >= '0' && c <= '9') return c - '0' + 52;
    switch (c) {
    case '+': return 62;
    case '/': return 63;
    default: return -1;
    }
}
static int decode(int n) {
    int to = 0;
    for (int i = 0; i < n; i += 4) {
        int a = value(coded[i]), b = value(coded[i + 1]), c = value(coded[i + 2]), d = value(coded[i + 3]);
        back[to++] = (unsigned char)(a << 2 | b >> 4);
        if (c >= 0) back[to++] = (unsigned char)(b << 4 | c >> 2);
        if (d >= 0) back[to++] = (unsigned char)(c << 6 | d);
    }
    return to;
}
unsigned long coded_sum(int n, unsigned x) {
    fill(n, x);
    int many = encode(n);
    unsigned long sum = (unsigned long)many;
    for (int i = 0; i < many; i++) sum = sum * 7 + coded[i];
    return sum;
}
int comes_back(int n, unsigned x) {
    fill(n, x);
    if (decode(encode(n)) != n) return -1;
    for (int i = 0; i < n; i++)
        if (in[i] != back[i]) return i;
    return n;
}
