// A ring of places, and a heap of events.
struct ring {
    int items[8];
    unsigned head, tail;
};
static struct ring ring;
static int put(struct ring *r, int x) {
    if (r->tail - r->head == 8) return 0;
    r->items[r->tail++ & 7] = x;
    return 1;
}
static int take(struct ring *r, int *to) {
    if (r->tail == r->head) return 0;
    *to = r->items[r->head++ & 7];
    return 1;
}
long passed(int n, int each) {
    long sum = 0;
    int x, refused = 0;
    ring.head = ring.tail = 0xFFFFFFFE;
    for (int i = 0; i < n; i++) {
        if (!put(&ring, i)) refused++;
        if (i % each == 0 && take(&ring, &x)) sum = sum * 3 + x;
    }
    while (take(&ring, &x)) sum = sum * 3 + x;
    return sum * 100 + refused;
}
struct event {
    int when;
    short what;
};
static struct event heap[32];
static int many;
static void plan(int when, short what) {
    int i = many++;
    while (i > 0 && heap[(i - 1) / 2].when > when) {
        heap[i] = heap[(i - 1) / 2];
        i = (i - 1) / 2;
    }
    heap[i].when = when;
    heap[i].what = what;
}
static struct event *first(void) {
    static struct event top;
    top = heap[0];
    struct event last = heap[--many];
    int i = 0;
    for (;;) {
        int child = 2 * i + 1;
        if (child >= many) break;
        if (child + 1 < many && heap[child + 1].when < heap[child].when) child++;
        if (heap[child].when >= last.when) break;
        heap[i] = heap[child];
        i = child;
    }
    heap[i] = last;
    return &top;
}
long happened(int turns) {
    long sum = 0;
    many = 0;
    plan(3, 1);
    plan(1, 2);
    plan(2, 3);
    while (turns-- > 0 && many) {
        struct event *e = first();
        int when = e->when;
        short what = e->what;
        sum = sum * 5 + what;
        plan(when + what * 2, what);
        if (when == 7) plan(when + 1, 4);
    }
    return sum;
}
