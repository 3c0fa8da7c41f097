// Places in an ordered table.
static const short keys[16] = {-300, -20, -7, -1, 0, 1, 2, 3, 5, 8, 13, 21, 34, 55, 89, 144};
int find(short key) {
    int low = 0, high = 15;
    while (low <= high) {
        int middle = (low + high) / 2;
        if (keys[middle] == key) return middle;
        if (keys[middle] < key)
            low = middle + 1;
        else
            high = middle - 1;
    }
    return -1 - low;
}
int first_not_below(int key) {
    int low = 0, many = 16;
    while (many > 0) {
        int half = many >> 1;
        if (keys[low + half] < key) {
            low += half + 1;
            many -= half + 1;
        } else
            many = half;
    }
    return low;
}
unsigned root(unsigned n) {
    unsigned low = 0, high = 65536;
    while (high - low > 1) {
        unsigned middle = (low + high) / 2;
        if (middle * middle <= n)
            low = middle;
        else
            high = middle;
    }
    return low;
}
