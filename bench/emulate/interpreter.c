// A plain interpreter of RV64IM words over the same address map, beside which the hart is timed.
// It fetches, decodes by switches and runs one instruction after another, and has the same memory, cells, stubs, fuel and faults.
#include "arithmetic.h"
#include <inttypes.h>
#include <stdint.h>
#include <stdio.h>
#include <stdlib.h>
#include <string.h>

enum { EXIT = 0x8000, STUBS = 0x10000, CELLS = 0x100000, CODE = 0x1000000, DATA = 0x10000000, CONTROL = 0x40000000 };
enum { CONTROL_SIZE = 0x800000, FUNCTIONS = 1 };

typedef enum { VALUE, STACK, FUEL, FAULT } Ended;

typedef struct {
    uint64_t x[32];
    uint64_t pc;
    uint8_t *bytes;
    uint64_t room;
    uint8_t *control;
    const uint32_t *code;
    uint64_t code_words;
    uint64_t cells[FUNCTIONS];
    uint64_t counts[FUNCTIONS];
    uint64_t left;
} Hart;

static uint8_t *find(Hart *h, uint64_t address, uint64_t size) {
    if (address >= DATA && address - DATA <= h->room && size <= h->room - (address - DATA)) return h->bytes + (address - DATA);
    if (address >= CONTROL && address - CONTROL <= CONTROL_SIZE && size <= CONTROL_SIZE - (address - CONTROL))
        return h->control + (address - CONTROL);
    return NULL;
}

static int load(Hart *h, uint32_t funct3, uint64_t address, uint64_t *value) {
    static const uint8_t sizes[8] = {1, 2, 4, 8, 1, 2, 4, 0};
    if (funct3 == 3 && address >= CELLS && address < CELLS + 8 * FUNCTIONS && address % 8 == 0) {
        *value = h->cells[(address - CELLS) / 8];
        return 1;
    }
    if (funct3 == 7) return 0;
    uint8_t *p = find(h, address, sizes[funct3]);
    if (!p) return 0;
    uint64_t bits = 0;
    switch (funct3) {
    case 0: *value = (int64_t)(int8_t)*p; return 1;
    case 1: memcpy(&bits, p, 2); *value = (int64_t)(int16_t)bits; return 1;
    case 2: memcpy(&bits, p, 4); *value = (int64_t)(int32_t)bits; return 1;
    case 3: memcpy(value, p, 8); return 1;
    case 4: *value = *p; return 1;
    case 5: memcpy(&bits, p, 2); *value = bits; return 1;
    default: memcpy(&bits, p, 4); *value = bits; return 1;
    }
}

static int store(Hart *h, uint32_t funct3, uint64_t address, uint64_t value) {
    if (funct3 > 3) return 0;
    uint8_t *p = find(h, address, 1 << funct3);
    if (!p) return 0;
    switch (funct3) {
    case 0: *p = value; return 1;
    case 1: memcpy(p, &value, 2); return 1;
    case 2: memcpy(p, &value, 4); return 1;
    default: memcpy(p, &value, 8); return 1;
    }
}

static uint32_t stub_word(uint64_t symbol, uint64_t place) {
    uint32_t cell = CELLS + 8 * symbol;
    switch (place) {
    case 0: return (cell + 2048) / 4096 << 12 | 6 << 7 | 0x37;
    case 1: return cell << 20 | 6 << 15 | 3 << 12 | 6 << 7 | 0x03;
    case 2: return 6 << 15 | 0x67;
    default: return 0x13;
    }
}

static Ended run(Hart *h) {
    uint64_t *x = h->x;
    for (;;) {
        uint64_t pc = h->pc;
        uint32_t word;
        if (pc == EXIT) return VALUE;
        if (h->left == 0) return FUEL;
        if (pc >= STUBS && pc < STUBS + 16 * FUNCTIONS && pc % 4 == 0) word = stub_word((pc - STUBS) / 16, (pc - STUBS) % 16 / 4);
        else if (pc >= CODE && pc < CODE + 4 * h->code_words && pc % 4 == 0) word = h->code[(pc - CODE) / 4];
        else return FAULT;
        h->left--;
        uint32_t rd = word >> 7 & 31, funct3 = word >> 12 & 7, funct7 = word >> 25;
        uint64_t a = x[word >> 15 & 31], b = x[word >> 20 & 31], value = 0, next = pc + 4;
        switch (word & 127) {
        case 0x37: x[rd] = word_of(word & 0xfffff000); break;
        case 0x17: x[rd] = pc + word_of(word & 0xfffff000); break;
        case 0x6f: x[rd] = next; next = pc + j_immediate(word); break;
        case 0x67:
            if (funct3 != 0) return FAULT;
            x[rd] = next;
            next = (a + i_immediate(word)) & ~(uint64_t)1;
            break;
        case 0x63: {
            int taken = branch(funct3, a, b);
            if (taken < 0) return FAULT;
            if (taken) next = pc + b_immediate(word);
            break;
        }
        case 0x03:
            if (!load(h, funct3, a + i_immediate(word), &value)) return FAULT;
            x[rd] = value;
            break;
        case 0x23:
            if (!store(h, funct3, a + s_immediate(word), b)) return FAULT;
            break;
        case 0x13:
            if (!operate_immediate(word, funct3, a, &value)) return FAULT;
            x[rd] = value;
            break;
        case 0x1b:
            if (!operate_immediate_word(word, funct3, a, &value)) return FAULT;
            x[rd] = value;
            break;
        case 0x33:
            if (!operate(funct7, funct3, a, b, &value)) return FAULT;
            x[rd] = value;
            break;
        case 0x3b:
            if (!operate_words(funct7, funct3, a, b, &value)) return FAULT;
            x[rd] = value;
            break;
        case 0x0f:
            if (word != 0x0ff0000f) return FAULT;
            break;
        case 0x73:
            if (word != 0x73) return FAULT;
            if (x[5] == 2) return STACK;
            if (x[5] != 1 || x[6] >= FUNCTIONS) return FAULT;
            h->counts[x[6]]++;
            break;
        default: return FAULT;
        }
        x[0] = 0;
        h->pc = next;
    }
}

// Runs the words on the command line, in hexadecimal, and prints the answer and how many instructions were run.
int main(int count, char **texts) {
    enum { ROOM = 2097152 };
    const uint64_t fuel = (uint64_t)1 << 40;
    Hart h = {.pc = STUBS, .room = ROOM, .left = fuel, .code_words = count};
    uint32_t *code = malloc(4 * count);
    h.bytes = calloc(ROOM, 1);
    h.control = calloc(CONTROL_SIZE, 1);
    if (!h.bytes || !h.control || !code) return 1;
    code[0] = 1;
    for (int i = 1; i < count; i++) code[i] = strtoul(texts[i], NULL, 16);
    h.code = code;
    h.cells[0] = CODE + 4;
    h.x[1] = EXIT;
    h.x[2] = CONTROL + CONTROL_SIZE;
    h.x[27] = DATA;
    if (run(&h) != VALUE) return 2;
    printf("%" PRIx64 " %" PRIu64 "\n", h.x[10], fuel - h.left);
    free(code);
    free(h.control);
    free(h.bytes);
    return 0;
}
