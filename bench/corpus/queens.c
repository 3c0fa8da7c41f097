// Queens that don't reach each other, counted by bits and by columns.
static int place(unsigned all, unsigned columns, unsigned left, unsigned right) {
    if (columns == all) return 1;
    int found = 0;
    unsigned free = all & ~(columns | left | right);
    while (free) {
        unsigned one = free & (0u - free);
        free ^= one;
        found += place(all, columns | one, (left | one) << 1, (right | one) >> 1);
    }
    return found;
}
int queens(int n) { return place((1u << n) - 1, 0, 0, 0); }
static signed char at[8];
static int fits(int row, int column) {
    for (int i = 0; i < row; i++) {
        int d = at[i] - column;
        if (d == 0 || d == row - i || d == i - row) return 0;
    }
    return 1;
}
int first_by_columns(int n) {
    int row = 0, column = 0;
    while (row < n) {
        while (column < n && !fits(row, column)) column++;
        if (column < n) {
            at[row++] = (signed char)column;
            column = 0;
        } else {
            if (row == 0) return -1;
            column = at[--row] + 1;
        }
    }
    int code = 0;
    for (int i = 0; i < n; i++) code = code * 10 + at[i];
    return code;
}
