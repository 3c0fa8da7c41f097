/* How many words a text has, and how long its longest one is, by a table of what each byte is. */
const char fox[] = "the quick brown fox\tjumps over\n the lazy dog";
const char blank[] = " \t ";
static const unsigned char is_blank[128] = {[' '] = 1, ['\t'] = 1, ['\n'] = 1};

long words(const char *text)
{
    long count = 0;
    int inside = 0;
    for (; *text; text++) {
        int blank_here = is_blank[*text & 127];
        count += !blank_here && !inside;
        inside = !blank_here;
    }
    return count;
}

int longest(const char *text, int least)
{
    int most = least, now = 0;
    for (; *text; text++) {
        now = is_blank[*text & 127] ? 0 : now + 1;
        if (now > most)
            most = now;
    }
    return most;
}
