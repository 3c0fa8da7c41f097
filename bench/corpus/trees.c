// A search tree in arrays.
static int key[64], left[64], right[64], many;
static int fresh(int k) {
    key[many] = k;
    left[many] = right[many] = -1;
    return many++;
}
static int inserted(int node, int k) {
    if (node < 0) return fresh(k);
    if (k < key[node])
        left[node] = inserted(left[node], k);
    else if (k > key[node])
        right[node] = inserted(right[node], k);
    return node;
}
static int depth(int node) {
    if (node < 0) return 0;
    int a = depth(left[node]), b = depth(right[node]);
    return 1 + (a > b ? a : b);
}
static void walk(int node, long *sum) {
    if (node < 0) return;
    walk(left[node], sum);
    *sum = *sum * 5 + key[node];
    walk(right[node], sum);
}
static int grown(int n, int step, int modulus) {
    int root = -1, k = 1;
    many = 0;
    for (int i = 0; i < n; i++) {
        root = inserted(root, k);
        k = (k + step) % modulus;
    }
    return root;
}
int deepest(int n, int step, int modulus) { return depth(grown(n, step, modulus)); }
long ordered(int n, int step, int modulus) {
    long sum = 0;
    walk(grown(n, step, modulus), &sum);
    return sum;
}
int kept(int n, int step, int modulus) {
    grown(n, step, modulus);
    return many;
}
