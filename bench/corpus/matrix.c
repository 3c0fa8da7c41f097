// Small matrices.
typedef struct { unsigned long a[2][2]; } two;
static void by(const two *x, const two *y, two *to) {
    for (int i = 0; i < 2; i++)
        for (int j = 0; j < 2; j++) {
            unsigned long sum = 0;
            for (int k = 0; k < 2; k++) sum += x->a[i][k] * y->a[k][j];
            to->a[i][j] = sum;
        }
}
unsigned long fibonacci(unsigned n) {
    two power = {{{1, 1}, {1, 0}}}, result = {{{1, 0}, {0, 1}}}, next;
    for (; n; n >>= 1) {
        if (n & 1) {
            by(&result, &power, &next);
            result = next;
        }
        by(&power, &power, &next);
        power = next;
    }
    return result.a[0][1];
}
static const int left[4][4] = {{1, 2, 3, 4}, {5, 6, 7, 8}, {-1, 0, 2, -3}, {9, -9, 1, 1}};
static const int right[4][4] = {{2, 0, 1, -1}, {1, 1, 1, 1}, {0, 3, 0, 7}, {-4, 2, 5, 6}};
static int product[4][4];
int trace_of_product(void) {
    int trace = 0;
    for (int i = 0; i < 4; i++)
        for (int j = 0; j < 4; j++) {
            product[i][j] = 0;
            for (int k = 0; k < 4; k++) product[i][j] += left[i][k] * right[k][j];
        }
    for (int i = 0; i < 4; i++) trace += product[i][i];
    return trace;
}
int entry(int i, int j) {
    trace_of_product();
    return product[i & 3][j & 3];
}
// The determinant of the rows (a, b, c), (b, c, a), (c, a, b).
long circulant(long a, long b, long c) {
    long m[3][3] = {{a, b, c}, {b, c, a}, {c, a, b}};
    return m[0][0] * (m[1][1] * m[2][2] - m[1][2] * m[2][1]) - m[0][1] * (m[1][0] * m[2][2] - m[1][2] * m[2][0]) +
           m[0][2] * (m[1][0] * m[2][1] - m[1][1] * m[2][0]);
}
