// Tables that are filled row by row.
static const int weights[6] = {3, 4, 5, 9, 14, 2}, worths[6] = {3, 4, 4, 10, 15, 1};
int knapsack(int room) {
    static int best[65];
    for (int w = 0; w <= room; w++) best[w] = 0;
    for (int i = 0; i < 6; i++)
        for (int w = room; w >= weights[i]; w--) {
            int with = best[w - weights[i]] + worths[i];
            if (with > best[w]) best[w] = with;
        }
    return best[room];
}
static const char *const words[4] = {"kitten", "sitting", "saturday", "sunday"};
static int length(const char *s) {
    int n = 0;
    while (s[n]) n++;
    return n;
}
int edits(int i, int j) {
    const char *a = words[i & 3], *b = words[j & 3];
    int m = length(a), n = length(b), row[12];
    for (int y = 0; y <= n; y++) row[y] = y;
    for (int x = 1; x <= m; x++) {
        int corner = row[0];
        row[0] = x;
        for (int y = 1; y <= n; y++) {
            int change = corner + (a[x - 1] != b[y - 1]);
            int above = row[y] + 1, before = row[y - 1] + 1;
            corner = row[y];
            row[y] = change < above ? (change < before ? change : before) : (above < before ? above : before);
        }
    }
    return row[n];
}
long binomial(int n, int k) {
    long line[40];
    for (int i = 0; i <= n; i++) {
        line[i] = 1;
        for (int j = i - 1; j > 0; j--) line[j] += line[j - 1];
    }
    return line[k];
}
int ways_to_pay(int cents) {
    static const int coins[5] = {1, 5, 10, 25, 50};
    int ways[101];
    ways[0] = 1;
    for (int i = 1; i <= cents; i++) ways[i] = 0;
    for (int c = 0; c < 5; c++)
        for (int i = coins[c]; i <= cents; i++) ways[i] += ways[i - coins[c]];
    return ways[cents];
}
