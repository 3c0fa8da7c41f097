// RV64IM's immediates, comparisons and arithmetic, for the interpreters of bench.
#include <stdint.h>

static int64_t sign_extend(uint64_t bits, int width) { return (int64_t)(bits << (64 - width)) >> (64 - width); }

static int64_t i_immediate(uint32_t word) { return (int32_t)word >> 20; }

static int64_t s_immediate(uint32_t word) { return sign_extend(word >> 25 << 5 | (word >> 7 & 31), 12); }

static int64_t b_immediate(uint32_t word) {
    return sign_extend((word >> 31) << 12 | (word >> 7 & 1) << 11 | (word >> 25 & 63) << 5 | (word >> 8 & 15) << 1, 13);
}

static int64_t j_immediate(uint32_t word) {
    return sign_extend((word >> 31) << 20 | (word >> 12 & 255) << 12 | (word >> 20 & 1) << 11 | (word >> 21 & 1023) << 1, 21);
}

static uint64_t word_of(uint64_t value) { return (int64_t)(int32_t)value; }

static int branch(uint32_t funct3, uint64_t a, uint64_t b) {
    switch (funct3) {
    case 0: return a == b;
    case 1: return a != b;
    case 4: return (int64_t)a < (int64_t)b;
    case 5: return (int64_t)a >= (int64_t)b;
    case 6: return a < b;
    case 7: return a >= b;
    default: return -1;
    }
}

static int operate(uint32_t funct7, uint32_t funct3, uint64_t a, uint64_t b, uint64_t *value) {
    int64_t sa = a, sb = b;
    switch (funct7 << 3 | funct3) {
    case 0: *value = a + b; return 1;
    case 1: *value = a << (b & 63); return 1;
    case 2: *value = sa < sb; return 1;
    case 3: *value = a < b; return 1;
    case 4: *value = a ^ b; return 1;
    case 5: *value = a >> (b & 63); return 1;
    case 6: *value = a | b; return 1;
    case 7: *value = a & b; return 1;
    case 256: *value = a - b; return 1;
    case 261: *value = sa >> (b & 63); return 1;
    case 8: *value = a * b; return 1;
    case 9: *value = (__int128)sa * sb >> 64; return 1;
    case 10: *value = (__int128)sa * b >> 64; return 1;
    case 11: *value = (unsigned __int128)a * b >> 64; return 1;
    case 12: *value = b == 0 ? UINT64_MAX : sb == -1 ? -a : (uint64_t)(sa / sb); return 1;
    case 13: *value = b == 0 ? UINT64_MAX : a / b; return 1;
    case 14: *value = b == 0 ? a : sb == -1 ? 0 : (uint64_t)(sa % sb); return 1;
    case 15: *value = b == 0 ? a : a % b; return 1;
    default: return 0;
    }
}

static int operate_words(uint32_t funct7, uint32_t funct3, uint64_t a, uint64_t b, uint64_t *value) {
    uint32_t ua = a, ub = b;
    int32_t sa = a, sb = b;
    switch (funct7 << 3 | funct3) {
    case 0: *value = word_of(a + b); return 1;
    case 1: *value = word_of(a << (b & 31)); return 1;
    case 5: *value = word_of(ua >> (b & 31)); return 1;
    case 256: *value = word_of(a - b); return 1;
    case 261: *value = (int64_t)(sa >> (b & 31)); return 1;
    case 8: *value = word_of(a * b); return 1;
    case 12: *value = ub == 0 ? UINT64_MAX : word_of((int64_t)sa / sb); return 1;
    case 13: *value = ub == 0 ? UINT64_MAX : word_of(ua / ub); return 1;
    case 14: *value = ub == 0 ? word_of(a) : word_of((int64_t)sa % sb); return 1;
    case 15: *value = ub == 0 ? word_of(a) : word_of(ua % ub); return 1;
    default: return 0;
    }
}

static int operate_immediate(uint32_t word, uint32_t funct3, uint64_t a, uint64_t *value) {
    int64_t number = i_immediate(word);
    switch (funct3) {
    case 0: *value = a + number; return 1;
    case 2: *value = (int64_t)a < number; return 1;
    case 3: *value = a < (uint64_t)number; return 1;
    case 4: *value = a ^ number; return 1;
    case 6: *value = a | number; return 1;
    case 7: *value = a & number; return 1;
    case 1: *value = a << (word >> 20 & 63); return word >> 26 == 0;
    default:
        *value = word >> 30 & 1 ? (uint64_t)((int64_t)a >> (word >> 20 & 63)) : a >> (word >> 20 & 63);
        return word >> 26 == 0 || word >> 26 == 16;
    }
}

static int operate_immediate_word(uint32_t word, uint32_t funct3, uint64_t a, uint64_t *value) {
    uint32_t amount = word >> 20 & 31;
    switch (funct3) {
    case 0: *value = word_of(a + i_immediate(word)); return 1;
    case 1: *value = word_of(a << amount); return word >> 25 == 0;
    case 5:
        *value = word >> 30 & 1 ? (uint64_t)(int64_t)((int32_t)a >> amount) : word_of((uint32_t)a >> amount);
        return word >> 25 == 0 || word >> 25 == 32;
    default: return 0;
    }
}
