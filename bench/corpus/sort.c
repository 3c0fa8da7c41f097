// Four ways to order numbers; each answers a sum that shows the order.
static int xs[64];
static unsigned seed;
static void fill(int n, unsigned from) {
    seed = from;
    for (int i = 0; i < n; i++) {
        seed = seed * 1103515245u + 12345u;
        xs[i] = (int)(seed >> 16) % 1000 - 500;
    }
}
static unsigned long shown(int n) {
    unsigned long sum = 0;
    for (int i = 0; i < n; i++) sum = sum * 31 + (unsigned long)xs[i] + (i && xs[i - 1] > xs[i] ? 1000000u : 0u);
    return sum;
}
static void swap(int *a, int *b) {
    int t = *a;
    *a = *b;
    *b = t;
}
unsigned long insertion(int n, unsigned from) {
    fill(n, from);
    for (int i = 1; i < n; i++) {
        int k = xs[i], j = i - 1;
        for (; j >= 0 && xs[j] > k; j--) xs[j + 1] = xs[j];
        xs[j + 1] = k;
    }
    return shown(n);
}
static void quick(int low, int high) {
    if (low >= high) return;
    int pivot = xs[(low + high) / 2], i = low, j = high;
    while (i <= j) {
        while (xs[i] < pivot) i++;
        while (xs[j] > pivot) j--;
        if (i <= j) swap(&xs[i++], &xs[j--]);
    }
    quick(low, j);
    quick(i, high);
}
unsigned long quicksort(int n, unsigned from) {
    fill(n, from);
    quick(0, n - 1);
    return shown(n);
}
static void sift(int root, int n) {
    for (;;) {
        int child = 2 * root + 1;
        if (child >= n) return;
        if (child + 1 < n && xs[child] < xs[child + 1]) child++;
        if (xs[root] >= xs[child]) return;
        swap(&xs[root], &xs[child]);
        root = child;
    }
}
unsigned long heapsort(int n, unsigned from) {
    fill(n, from);
    for (int i = n / 2 - 1; i >= 0; i--) sift(i, n);
    for (int i = n - 1; i > 0; i--) {
        swap(&xs[0], &xs[i]);
        sift(0, i);
    }
    return shown(n);
}
static int ys[64];
static void merge(int low, int high) {
    if (high - low < 2) return;
    int middle = low + (high - low) / 2, i = low, j = middle;
    merge(low, middle);
    merge(middle, high);
    for (int k = low; k < high; k++) ys[k] = j >= high || (i < middle && xs[i] <= xs[j]) ? xs[i++] : xs[j++];
    __builtin_memcpy(&xs[low], &ys[low], (unsigned long)(high - low) * sizeof xs[0]);
}
unsigned long mergesort(int n, unsigned from) {
    fill(n, from);
    merge(0, n);
    return shown(n);
}
