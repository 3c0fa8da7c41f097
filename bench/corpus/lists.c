// Linked lists, by numbers and by pointers.
struct cell {
    struct cell *next;
    int value;
};
static struct cell cells[40];
static int used;
static struct cell *push(struct cell *list, int value) {
    struct cell *c = &cells[used++];
    c->next = list;
    c->value = value;
    return c;
}
static struct cell *reversed(struct cell *list) {
    struct cell *done = 0;
    while (list) {
        struct cell *next = list->next;
        list->next = done;
        done = list;
        list = next;
    }
    return done;
}
static long shown(const struct cell *list) { return list ? list->value + 3 * shown(list->next) : 0; }
long pushed(int n) {
    struct cell *list = 0;
    used = 0;
    for (int i = 1; i <= n; i++) list = push(list, i * i);
    return shown(list);
}
long turned(int n) {
    struct cell *list = 0;
    used = 0;
    for (int i = 1; i <= n; i++) list = push(list, i * i);
    return shown(reversed(list));
}
static struct cell *inserted(struct cell *list, int value) {
    struct cell **at = &list;
    while (*at && (*at)->value < value) at = &(*at)->next;
    *at = push(*at, value);
    return list;
}
long in_order(int n, unsigned x) {
    struct cell *list = 0;
    used = 0;
    for (int i = 0; i < n; i++) {
        x = x * 1664525u + 1013904223u;
        list = inserted(list, (int)(x >> 24));
    }
    return shown(list);
}
static short following[16];
int by_numbers(int n, int step) {
    for (int i = 0; i < n; i++) following[i] = (short)((i + step) % n);
    int at = 0, many = 0;
    do {
        at = following[at];
        many++;
    } while (at);
    return many;
}
