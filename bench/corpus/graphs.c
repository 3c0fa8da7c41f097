// Ways through small graphs.
#define N 8
static const unsigned char lengths[N][N] = {{0, 4, 0, 0, 0, 0, 0, 8}, {4, 0, 8, 0, 0, 0, 0, 11}, {0, 8, 0, 7, 0, 4, 0, 0}, {0, 0, 7, 0, 9, 14, 0, 0},
                                            {0, 0, 0, 9, 0, 10, 0, 0}, {0, 0, 4, 14, 10, 0, 2, 0}, {0, 0, 0, 0, 0, 2, 0, 1}, {8, 11, 0, 0, 0, 0, 1, 0}};
int shortest(int from, int to) {
    int far[N];
    _Bool done[N];
    for (int i = 0; i < N; i++) {
        far[i] = 1 << 20;
        done[i] = 0;
    }
    far[from] = 0;
    for (int k = 0; k < N; k++) {
        int near = -1;
        for (int i = 0; i < N; i++)
            if (!done[i] && (near < 0 || far[i] < far[near])) near = i;
        done[near] = 1;
        for (int i = 0; i < N; i++)
            if (lengths[near][i] && far[near] + lengths[near][i] < far[i]) far[i] = far[near] + lengths[near][i];
    }
    return far[to];
}
int between_all(void) {
    static int d[N][N];
    int sum = 0;
    for (int i = 0; i < N; i++)
        for (int j = 0; j < N; j++) d[i][j] = i == j ? 0 : lengths[i][j] ? lengths[i][j] : 1000;
    for (int k = 0; k < N; k++)
        for (int i = 0; i < N; i++)
            for (int j = 0; j < N; j++)
                if (d[i][k] + d[k][j] < d[i][j]) d[i][j] = d[i][k] + d[k][j];
    for (int i = 0; i < N; i++)
        for (int j = 0; j < N; j++) sum += d[i][j];
    return sum;
}
static int parent[32];
static int leader(int i) {
    while (parent[i] != i) {
        parent[i] = parent[parent[i]];
        i = parent[i];
    }
    return i;
}
int groups(int n, int step) {
    int many = n;
    for (int i = 0; i < n; i++) parent[i] = i;
    for (int i = 0; i < n; i++) {
        int a = leader(i), b = leader((i + step) % n);
        if (a != b) {
            parent[a] = b;
            many--;
        }
    }
    return many;
}
static const char maze[6][9] = {"#######", "#.#...#", "#.#.#.#", "#...#.#", "#####.#", "#######"};
static signed char seen[6][9];
static int walk(int row, int column, int steps) {
    if (maze[row][column] == '#' || (seen[row][column] && seen[row][column] <= steps)) return 0;
    seen[row][column] = (signed char)steps;
    return 1 + walk(row + 1, column, steps + 1) + walk(row - 1, column, steps + 1) + walk(row, column + 1, steps + 1) + walk(row, column - 1, steps + 1);
}
int steps_to(int row, int column) {
    for (int i = 0; i < 6; i++)
        for (int j = 0; j < 9; j++) seen[i][j] = 0;
    walk(1, 1, 1);
    return seen[row][column] - 1;
}
