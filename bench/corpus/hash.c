// Hashes, and a table with open addresses.
typedef unsigned long word;
word fnv(word x) {
    word h = 0xcbf29ce484222325ul;
    for (int i = 0; i < 8; i++) {
        h ^= x >> 8 * i & 255;
        h *= 0x100000001b3ul;
    }
    return h;
}
unsigned mixed(unsigned x) {
    x ^= x >> 16;
    x *= 0x85ebca6bu;
    x ^= x >> 13;
    x *= 0xc2b2ae35u;
    return x ^ x >> 16;
}
struct slot {
    unsigned key;
    int count;
};
static struct slot slots[32];
static struct slot *find(unsigned key) {
    unsigned i = mixed(key) & 31;
    while (slots[i].count && slots[i].key != key) i = (i + 1) & 31;
    return &slots[i];
}
// How often the commonest of n numbers x, x·a + 1, .. modulo 16 stands among them.
int commonest(int n, unsigned x, unsigned a) {
    int best = 0;
    for (int i = 0; i < 32; i++) slots[i].count = 0;
    for (int i = 0; i < n; i++) {
        struct slot *s = find(x);
        s->key = x;
        if (++s->count > best) best = s->count;
        x = (x * a + 1) & 15;
    }
    return best;
}
