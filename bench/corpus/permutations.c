// Orders of a few things.
static unsigned char order[8];
static void identity(int n) {
    for (int i = 0; i < n; i++) order[i] = (unsigned char)i;
}
static int next(int n) {
    int i = n - 2, j = n - 1;
    while (i >= 0 && order[i] >= order[i + 1]) i--;
    if (i < 0) return 0;
    while (order[j] <= order[i]) j--;
    unsigned char t = order[i];
    order[i] = order[j];
    order[j] = t;
    for (int a = i + 1, b = n - 1; a < b; a++, b--) {
        t = order[a];
        order[a] = order[b];
        order[b] = t;
    }
    return 1;
}
static int code(int n) {
    int all = 0;
    for (int i = 0; i < n; i++) all = all * 8 + order[i];
    return all;
}
int orders(int n) {
    int many = 1;
    identity(n);
    while (next(n)) many++;
    return many;
}
int order_number(int n, int k) {
    identity(n);
    while (k-- > 0 && next(n)) {}
    return code(n);
}
static int inversions(int n) {
    int many = 0;
    for (int i = 0; i < n; i++)
        for (int j = i + 1; j < n; j++) many += order[i] > order[j];
    return many;
}
int even_ones(int n) {
    int many = 0;
    identity(n);
    do many += !(inversions(n) & 1);
    while (next(n));
    return many;
}
int subsets(const int n, int sum) {
    int found = 0;
    for (int set = 0; set < 1 << n; set++) {
        int all = 0;
        for (int i = 0; i < n; i++)
            if (set >> i & 1) all += i + 1;
        if (all == sum) found++;
    }
    return found;
}
