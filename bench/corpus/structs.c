// Structs, packed and nested, unions and fields of bits.
struct point {
    short x, y;
};
struct box {
    struct point low, high;
    unsigned char colour;
    long weight;
};
struct __attribute__((packed)) tight {
    unsigned char tag;
    int number;
    short rest;
};
struct flags {
    unsigned a : 3, b : 5, c : 11;
    int d : 6;
};
union either {
    unsigned whole;
    unsigned char parts[4];
};
static struct box boxes[3] = {{{0, 0}, {3, 4}, 7, 100}, {{-2, -2}, {2, 2}, 200, -5}, {{5, 5}, {5, 9}, 0, 1l << 40}};
static int area(const struct box *b) { return (b->high.x - b->low.x) * (b->high.y - b->low.y); }
int area_of(unsigned i) { return area(&boxes[i % 3]); }
long weight(void) {
    long sum = 0;
    for (struct box *b = boxes; b < boxes + 3; b++) sum += b->weight + b->colour;
    return sum;
}
static void joined(struct box *a, struct box *b, struct box *to) {
    *to = *a;
    if (b->low.x < to->low.x) to->low.x = b->low.x;
    if (b->low.y < to->low.y) to->low.y = b->low.y;
    if (b->high.x > to->high.x) to->high.x = b->high.x;
    if (b->high.y > to->high.y) to->high.y = b->high.y;
}
int joined_area(unsigned i, unsigned j) {
    struct box b;
    joined(&boxes[i % 3], &boxes[j % 3], &b);
    return area(&b);
}
static struct tight tights[4];
int packed(int n) {
    int sum = 0;
    for (int i = 0; i < 4; i++) {
        tights[i].tag = (unsigned char)(n + i);
        tights[i].number = n * (i + 1);
        tights[i].rest = (short)(n >> i);
    }
    for (int i = 0; i < 4; i++) sum += tights[i].tag + tights[i].number * 3 - tights[i].rest;
    return sum + (int)sizeof(struct tight);
}
int fields(unsigned a, unsigned b, unsigned c, int d) {
    struct flags f = {0, 0, 0, 0};
    f.a = a;
    f.b = b;
    f.c = c;
    f.d = d;
    return (int)(f.a + f.b * 10 + f.c * 1000) + f.d;
}
unsigned reordered(unsigned x) {
    union either e;
    e.whole = x;
    for (int i = 0; i < 2; i++) {
        unsigned char t = e.parts[i];
        e.parts[i] = e.parts[3 - i];
        e.parts[3 - i] = t;
    }
    return e.whole;
}
int moved(unsigned i, int by) {
    struct box b = boxes[i % 3];
    b.low.x = (short)(b.low.x + by);
    return area(&b) - area(&boxes[i % 3]);
}
