// Machines of states: numbers in a text, comments, a lamp.
enum state { START, SIGN, WHOLE, POINT, PART, EXPONENT, POWER, WRONG };
static enum state next(enum state s, char c) {
    int digit = c >= '0' && c <= '9';
    switch (s) {
    case START:
        if (c == '-' || c == '+') return SIGN;
        return digit ? WHOLE : WRONG;
    case SIGN: return digit ? WHOLE : WRONG;
    case WHOLE:
        if (digit) return WHOLE;
        if (c == '.') return POINT;
        return c == 'e' ? EXPONENT : WRONG;
    case POINT: return digit ? PART : WRONG;
    case PART:
        if (digit) return PART;
        return c == 'e' ? EXPONENT : WRONG;
    case EXPONENT: return digit ? POWER : WRONG;
    case POWER: return digit ? POWER : WRONG;
    default: return WRONG;
    }
}
static const char *const texts[8] = {"12", "-3.25", "+7e10", "1.", "x", "", "9.5e", "0.125e3"};
_Bool is_number(unsigned i) {
    enum state s = START;
    for (const char *p = texts[i & 7]; *p; p++) s = next(s, *p);
    return s == WHOLE || s == PART || s == POWER;
}
// Red 3, red and amber 1, green 3, amber 1.
int lamp(unsigned turns) {
    int state = 0, left = 3;
    while (turns--) {
        if (--left) continue;
        switch (state) {
        case 0: state = 1; left = 1; break;
        case 1: state = 2; left = 3; break;
        case 2: state = 3; left = 1; break;
        case 3: state = 0; left = 3; break;
        }
    }
    return state * 10 + left;
}
static const char source[] = "a/b /* c*d */ e // f\n g /**/ h";
int without_comments(void) {
    int state = 0, kept = 0;
    for (int i = 0; source[i]; i++) {
        char c = source[i];
        switch (state) {
        case 0:
            if (c == '/') state = 1;
            else kept += c;
            break;
        case 1:
            if (c == '*') state = 2;
            else if (c == '/') state = 4;
            else {
                kept += '/' + c;
                state = 0;
            }
            break;
        case 2: if (c == '*') state = 3; break;
        case 3: state = c == '/' ? 0 : c == '*' ? 3 : 2; break;
        case 4:
            if (c == '\n') {
                kept += c;
                state = 0;
            }
        }
    }
    return kept;
}
