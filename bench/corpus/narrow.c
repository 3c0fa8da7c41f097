// Numbers of a byte and of two.
unsigned char brighter(unsigned char x, unsigned char by) {
    int sum = x + by;
    return (unsigned char)(sum > 255 ? 255 : sum);
}
signed char mean(signed char a, signed char b) { return (signed char)((a + b) / 2); }
short scaled(short x, int numerator, int denominator) { return (short)(x * numerator / denominator); }
unsigned short swapped(unsigned short x) { return (unsigned short)((x & 0x0F0F) << 4 | (x & 0xF0F0) >> 4); }
long extended(signed char a, unsigned char b, short c, unsigned short d) { return a + 1000l * b + 1000000l * c + 1000000000l * d; }
int compared(signed char a, unsigned char b) { return (a < b) | (a > b) << 1 | (a == b) << 2; }
unsigned char wrapped(unsigned char x, int times) {
    for (int i = 0; i < times; i++) x = (unsigned char)(x * 5 + 7);
    return x;
}
signed char least(signed char a, signed char b, signed char c) {
    signed char m = a;
    if (b < m) m = b;
    if (c < m) m = c;
    return m;
}
int quotients(int a, int b) { return a / b * 1000 + a % b; }
unsigned unsigned_quotients(unsigned a, unsigned b) { return a / b * 1000 + a % b; }
long shifts(int x, unsigned y, unsigned k) { return (long)(x >> (k & 31)) * 1000003 + (long)(y >> (k & 31)) + (long)(y << (k & 31)); }
_Bool between(int x, int low, int high) { return low <= x && x <= high; }
int choice(_Bool c, int a, int b) { return c ? a : b; }
