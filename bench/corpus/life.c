// The game of life on eight by eight cells, a bit each.
typedef unsigned long board;
static int neighbours(board b, int row, int column) {
    int n = 0;
    for (int i = -1; i <= 1; i++)
        for (int j = -1; j <= 1; j++)
            if (i || j) n += (int)(b >> ((row + i & 7) * 8 + (column + j & 7)) & 1);
    return n;
}
static board step(board b) {
    board to = 0;
    for (int row = 0; row < 8; row++)
        for (int column = 0; column < 8; column++) {
            int n = neighbours(b, row, column);
            int at = row * 8 + column;
            if (n == 3 || (n == 2 && b >> at & 1)) to |= 1ul << at;
        }
    return to;
}
board after(board b, int turns) {
    while (turns-- > 0) b = step(b);
    return b;
}
