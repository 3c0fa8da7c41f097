// Checks of texts.
static const char text[] = "The quick brown fox jumps over the lazy dog";
unsigned crc32(int length) {
    unsigned crc = ~0u;
    for (int i = 0; i < length; i++) {
        crc ^= (unsigned char)text[i];
        for (int k = 0; k < 8; k++) crc = crc >> 1 ^ (0xEDB88320u & (0u - (crc & 1)));
    }
    return ~crc;
}
static unsigned short table[256];
static void make(void) {
    for (int i = 0; i < 256; i++) {
        unsigned short c = (unsigned short)(i << 8);
        for (int k = 0; k < 8; k++) c = (unsigned short)(c & 0x8000 ? c << 1 ^ 0x1021 : c << 1);
        table[i] = c;
    }
}
unsigned short crc16(int length) {
    unsigned short crc = 0xFFFF;
    make();
    for (int i = 0; i < length; i++) crc = (unsigned short)(crc << 8 ^ table[(crc >> 8 ^ text[i]) & 255]);
    return crc;
}
unsigned adler(int length) {
    unsigned a = 1, b = 0;
    for (int i = 0; i < length; i++) {
        a = (a + (unsigned char)text[i]) % 65521;
        b = (b + a) % 65521;
    }
    return b << 16 | a;
}
unsigned char parity(unsigned long x) {
    unsigned char p = 0;
    for (; x; x >>= 8) p ^= (unsigned char)x;
    return p;
}
