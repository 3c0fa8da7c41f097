// Lucky numbers: of the odd numbers every third that is left goes, then every seventh, and so on.
static unsigned char out[512];
static int kept(int end, int place) {
    for (int n = 1; n < end; n += 2)
        if (!out[n] && place-- == 0) return n;
    return 0;
}
int lucky(int end) {
    for (int i = 0; i < end; i++) out[i] = 0;
    for (int place = 1;; place++) {
        int every = kept(end, place), seen = 0, gone = 0;
        if (every == 0) break;
        for (int n = 1; n < end; n += 2) {
            if (out[n]) continue;
            if (++seen % every == 0) {
                out[n] = 1;
                gone++;
            }
        }
        if (!gone) break;
    }
    int sum = 0;
    for (int n = 1; n < end; n += 2)
        if (!out[n]) sum += n;
    return sum;
}
