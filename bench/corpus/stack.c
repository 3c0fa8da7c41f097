// A machine with a stack, as bytes of a program.
enum { PUSH, ADD, SUB, MUL, DUP, SWAP, JUMP, ZERO, OVER, DROP, HALT };
static const signed char sums[] = {PUSH, 0, OVER, ZERO, 16, ADD, SWAP, PUSH, -1, ADD, SWAP, JUMP, 2, HALT, HALT, HALT, DROP, HALT};
static const signed char countdown[] = {DUP, ZERO, 8, PUSH, -1, ADD, JUMP, 0, HALT};
static const signed char cube[] = {DUP, DUP, MUL, MUL, HALT};
static const signed char *const programs[3] = {sums, countdown, cube};
long ran(unsigned which, long input, int most) {
    if (which > 2) return -1;
    const signed char *code = programs[which];
    long stack[16];
    int sp = 0, pc = 0;
    stack[sp++] = input;
    while (most-- > 0) {
        switch (code[pc++]) {
        case PUSH: stack[sp++] = code[pc++]; break;
        case ADD: sp--; stack[sp - 1] += stack[sp]; break;
        case SUB: sp--; stack[sp - 1] -= stack[sp]; break;
        case MUL: sp--; stack[sp - 1] *= stack[sp]; break;
        case DUP: stack[sp] = stack[sp - 1]; sp++; break;
        case OVER: stack[sp] = stack[sp - 2]; sp++; break;
        case DROP: sp--; break;
        case SWAP: {
            long t = stack[sp - 1];
            stack[sp - 1] = stack[sp - 2];
            stack[sp - 2] = t;
            break;
        }
        case JUMP: pc = code[pc]; break;
        case ZERO:
            if (stack[sp - 1] == 0) pc = code[pc];
            else pc++;
            break;
        case HALT: return stack[sp - 1] * 100 + sp;
        default: return -2;
        }
    }
    return -3;
}
