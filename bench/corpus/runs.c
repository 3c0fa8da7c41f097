// Runs of bytes, written short and long again.
static unsigned char from[64], packed[130], to[64];
static int pack(int n) {
    int out = 0;
    for (int i = 0; i < n;) {
        int run = 1;
        while (i + run < n && run < 255 && from[i + run] == from[i]) run++;
        packed[out++] = (unsigned char)run;
        packed[out++] = from[i];
        i += run;
    }
    return out;
}
static int unpack(int n) {
    int out = 0;
    for (int i = 0; i < n; i += 2) {
        __builtin_memset(to + out, packed[i + 1], packed[i]);
        out += packed[i];
    }
    return out;
}
static void fill(unsigned x) {
    for (int i = 0; i < 64; i++) {
        from[i] = (unsigned char)(x >> 28);
        if (i % 3 == 2) x = x * 22695477u + 1u;
    }
}
int packed_length(unsigned x) {
    fill(x);
    return pack(64);
}
int comes_back(unsigned x) {
    fill(x);
    int n = unpack(pack(64));
    for (int i = 0; i < n; i++)
        if (from[i] != to[i]) return -1;
    return n;
}
// Moves within one array, in both directions.
long moved(int low, int high, int many) {
    unsigned char bytes[32];
    long sum = 0;
    for (int i = 0; i < 32; i++) bytes[i] = (unsigned char)(i * i);
    __builtin_memmove(bytes + high, bytes + low, (unsigned long)many);
    for (int i = 0; i < 32; i++) sum = sum * 3 + bytes[i];
    return sum;
}
unsigned long cleared(int many) {
    unsigned long words[8];
    unsigned long sum = 0;
    for (int i = 0; i < 8; i++) words[i] = ~0ul - (unsigned)i;
    __builtin_memset(words, 0x5A, (unsigned long)many);
    for (int i = 0; i < 8; i++) sum ^= words[i] << i;
    return sum;
}
