// UTF-8: code points as bytes and back.
static unsigned char bytes[4];
static int put(unsigned point) {
    if (point < 0x80) {
        bytes[0] = (unsigned char)point;
        return 1;
    }
    if (point < 0x800) {
        bytes[0] = (unsigned char)(0xC0 | point >> 6);
        bytes[1] = (unsigned char)(0x80 | (point & 63));
        return 2;
    }
    if (point < 0x10000) {
        if (point >= 0xD800 && point < 0xE000) return 0;
        bytes[0] = (unsigned char)(0xE0 | point >> 12);
        bytes[1] = (unsigned char)(0x80 | (point >> 6 & 63));
        bytes[2] = (unsigned char)(0x80 | (point & 63));
        return 3;
    }
    if (point < 0x110000) {
        bytes[0] = (unsigned char)(0xF0 | point >> 18);
        bytes[1] = (unsigned char)(0x80 | (point >> 12 & 63));
        bytes[2] = (unsigned char)(0x80 | (point >> 6 & 63));
        bytes[3] = (unsigned char)(0x80 | (point & 63));
        return 4;
    }
    return 0;
}
unsigned coded(unsigned point) {
    unsigned all = 0;
    int n = put(point);
    for (int i = 0; i < n; i++) all = all << 8 | bytes[i];
    return all;
}
static int length_by_first(unsigned char b) {
    switch (b >> 4) {
    case 12: case 13: return 2;
    case 14: return 3;
    case 15: return 4;
    case 8: case 9: case 10: case 11: return 0;
    default: return 1;
    }
}
int point_again(unsigned point) {
    int n = put(point);
    if (n == 0) return -1;
    if (length_by_first(bytes[0]) != n) return -2;
    static const unsigned char kept[5] = {0, 0x7F, 0x1F, 0x0F, 0x07};
    int value = bytes[0] & kept[n];
    for (int i = 1; i < n; i++) value = value << 6 | (bytes[i] & 63);
    return value;
}
static const char text[] = "na\303\257ve caf\303\251 \342\202\254 \360\237\230\200";
int points(void) {
    int n = 0;
    for (const char *p = text; *p; p++)
        if ((*p & 0xC0) != 0x80) n++;
    return n;
}
