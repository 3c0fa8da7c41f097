// Counts the instructions of RV64IM that calls run, by kinds. It reads numbers in hexadecimal from standard input: how many words of code and the
// words, how many cells and what stands in them, how many bytes of data memory and the bytes, the data top, the symbol whose first arguments are
// added up, then a line a call: where it begins, how many arguments, and these. For each call it writes how it ended, the answer, the sum, and how
// many instructions of each kind it ran.
#include "../emulate/arithmetic.h"
#include <inttypes.h>
#include <stdio.h>
#include <stdlib.h>
#include <string.h>

enum { EXIT = 0x8000, STUBS = 0x10000, CELLS = 0x100000, BUILT_INS = 0xffff00, CODE = 0x1000000, DATA = 0x10000000, CONTROL = 0x40000000 };
enum { ROOM = 0x100000, CONTROL_SIZE = 0x800000, FUEL = 0x40000000 };

// What an instruction is for. ENTRY is all from a stub to the lowering of sp; BYTES is a byte that a built-in of the emulator moves.
typedef enum { ENTRY, CONSTANT, MOVE, FRAME, MEMORY, BRANCH, JUMP, CALL, PRODUCT, EXTENSION, SHIFT, COMPARE, ARITHMETIC, BYTES, KINDS } Kind;

typedef enum { VALUE, STACK, NO_FUEL, FAULT, RUNNING } Ended;

typedef struct {
    uint64_t x[32], pc, lowest, top, counts[KINDS], left, summed, sum;
    uint64_t words, cells, bytes;
    uint32_t *code;
    uint64_t *cell;
    uint8_t *image, *data, *control;
    int enters;
} Machine;

static uint8_t *place(Machine *m, uint64_t address, uint64_t size) {
    if (address >= DATA && address - DATA <= ROOM && size <= ROOM - (address - DATA)) return m->data + (address - DATA);
    if (address < CONTROL || address - CONTROL > CONTROL_SIZE || size > CONTROL_SIZE - (address - CONTROL)) return NULL;
    if (address < m->lowest) m->lowest = address;
    return m->control + (address - CONTROL);
}

static int load(Machine *m, uint32_t funct3, uint64_t address, uint64_t *value) {
    if (funct3 == 7) return 0;
    if (funct3 == 3 && address % 8 == 0 && address >= CELLS && address < CELLS + 8 * m->cells) {
        *value = m->cell[(address - CELLS) / 8];
        return 1;
    }
    uint64_t size = (uint64_t)1 << (funct3 & 3), bits = 0;
    uint8_t *p = place(m, address, size);
    if (!p) return 0;
    memcpy(&bits, p, size);
    *value = funct3 < 3 ? (uint64_t)sign_extend(bits, 8 * (int)size) : bits;
    return 1;
}

static int store(Machine *m, uint32_t funct3, uint64_t address, uint64_t value) {
    uint8_t *p = funct3 > 3 ? NULL : place(m, address, (uint64_t)1 << funct3);
    if (p) memcpy(p, &value, (size_t)1 << funct3);
    return p != NULL;
}

static Kind kind_of_arithmetic(uint32_t word) {
    uint32_t opcode = word & 127, funct3 = word >> 12 & 7, number = word >> 20;
    int is_immediate = opcode == 0x13 || opcode == 0x1b, is_wide = opcode == 0x13 || opcode == 0x33;
    if (!is_immediate && word >> 25 == 1) return PRODUCT;
    if (is_immediate && funct3 == 0 && (word >> 15 & 31) == 0) return CONSTANT;
    if (is_immediate && funct3 == 0 && number == 0) return is_wide ? MOVE : EXTENSION;
    if (opcode == 0x13 && funct3 == 7 && number == 255) return EXTENSION;
    if (is_wide && (funct3 == 2 || funct3 == 3)) return COMPARE;
    return funct3 == 1 || funct3 == 5 ? SHIFT : ARITHMETIC;
}

static Kind kind_of(uint32_t word) {
    uint32_t rd = word >> 7 & 31, rs1 = word >> 15 & 31;
    switch (word & 127) {
    case 0x37: case 0x17: return CONSTANT;
    case 0x6f: return rd ? CALL : JUMP;
    case 0x67: return rd || rs1 == 1 ? CALL : JUMP;
    case 0x63: return BRANCH;
    case 0x03: case 0x23: return rs1 == 2 ? FRAME : MEMORY;
    case 0x13: case 0x1b: case 0x33: case 0x3b: return kind_of_arithmetic(word);
    default: return ENTRY;
    }
}

// Whether two words are a shift to the left and one back by as much.
static int extends(uint32_t left, uint32_t right) {
    int are_shifts = (left & 0x707f) == 0x1013 && (right & 0x707f) == 0x5013;
    return are_shifts && (left >> 7 & 31) == (right >> 15 & 31) && (left >> 20 & 63) == (right >> 20 & 63);
}

static Kind kind_at(const Machine *m, uint32_t word) {
    if (m->enters) return ENTRY;
    uint64_t at = (m->pc - CODE) / 4;
    int follows = at > 0 && extends(m->code[at - 1], word), leads = at + 1 < m->words && extends(word, m->code[at + 1]);
    return follows || leads ? EXTENSION : kind_of(word);
}

// memcpy, memmove and memset of the emulator: an instruction a byte, and one for the return.
static Ended built_in(Machine *m) {
    uint64_t to = m->x[10], from = m->x[11], size = m->x[12];
    if (size > ROOM || m->left <= size) return size > ROOM ? FAULT : NO_FUEL;
    uint8_t *target = place(m, to, size), *source = m->pc == BUILT_INS + 8 ? target : place(m, from, size);
    if (!target || !source) return FAULT;
    if (m->pc == BUILT_INS + 8) memset(target, (int)from, size);
    else memmove(target, source, size);
    m->counts[BYTES] += size;
    m->counts[CALL]++;
    m->left -= size + 1;
    m->pc = m->x[1];
    return RUNNING;
}

static uint32_t stub_word(uint64_t symbol, uint64_t at) {
    uint32_t cell = CELLS + 8 * (uint32_t)symbol;
    uint32_t words[4] = {(cell + 2048) / 4096 << 12 | 6 << 7 | 0x37, cell << 20 | 6 << 15 | 3 << 12 | 6 << 7 | 0x03, 6 << 15 | 0x67, 0x13};
    return words[at];
}

static int fetch(Machine *m, uint32_t *word) {
    uint64_t pc = m->pc;
    if (pc % 4 == 0 && pc >= STUBS && pc < STUBS + 16 * m->cells) {
        m->enters = 1;
        *word = stub_word((pc - STUBS) / 16, (pc - STUBS) % 16 / 4);
        return 1;
    }
    if (pc % 4 || pc < CODE || pc >= CODE + 4 * m->words) return 0;
    *word = m->code[(pc - CODE) / 4];
    return 1;
}

// What an instruction that writes a register writes there; 0 where there is no such instruction.
static int result(Machine *m, uint32_t word, uint64_t a, uint64_t b, uint64_t *value) {
    uint32_t funct3 = word >> 12 & 7;
    switch (word & 127) {
    case 0x37: *value = word_of(word & 0xfffff000); return 1;
    case 0x17: *value = m->pc + word_of(word & 0xfffff000); return 1;
    case 0x6f: *value = m->pc + 4; return 1;
    case 0x67: *value = m->pc + 4; return funct3 == 0;
    case 0x03: return load(m, funct3, a + i_immediate(word), value);
    case 0x13: return operate_immediate(word, funct3, a, value);
    case 0x1b: return operate_immediate_word(word, funct3, a, value);
    case 0x33: return operate(word >> 25, funct3, a, b, value);
    case 0x3b: return operate_words(word >> 25, funct3, a, b, value);
    default: return 0;
    }
}

static Ended step(Machine *m) {
    if (m->pc >= BUILT_INS && m->pc < CODE) return built_in(m);
    uint32_t word;
    if (!fetch(m, &word)) return FAULT;
    uint32_t rd = word >> 7 & 31, opcode = word & 127;
    uint64_t a = m->x[word >> 15 & 31], b = m->x[word >> 20 & 31], next = m->pc + 4, value;
    m->counts[kind_at(m, word)]++;
    m->left--;
    if (opcode == 0x73) {
        if (m->x[5] != 1) return m->x[5] == 2 ? STACK : FAULT;
        if (m->x[6] == m->summed) m->sum += m->x[10];
    } else if (opcode == 0x63) {
        int taken = branch(word >> 12 & 7, a, b);
        if (taken < 0) return FAULT;
        if (taken) next = m->pc + b_immediate(word);
    } else if (opcode == 0x23) {
        if (!store(m, word >> 12 & 7, a + s_immediate(word), b)) return FAULT;
    } else {
        if (!result(m, word, a, b, &value)) return FAULT;
        if (opcode == 0x6f) next = m->pc + j_immediate(word);
        if (opcode == 0x67) next = (a + i_immediate(word)) & ~(uint64_t)1;
        if (rd) m->x[rd] = value;
        if (rd == 2) m->enters = 0;
    }
    m->pc = next;
    return RUNNING;
}

static Ended run(Machine *m) {
    Ended ended = RUNNING;
    while (ended == RUNNING) {
        if (m->pc == EXIT) return VALUE;
        if (m->left == 0) return NO_FUEL;
        ended = step(m);
    }
    return ended;
}

static uint64_t number(void) {
    uint64_t n;
    if (scanf("%" SCNx64, &n) != 1) exit(1);
    return n;
}

static void *room(uint64_t count, uint64_t size) {
    void *p = calloc(count + 1, size);
    if (!p) exit(1);
    return p;
}

static void read_machine(Machine *m) {
    m->words = number();
    m->code = room(m->words, 4);
    for (uint64_t i = 0; i < m->words; i++) m->code[i] = (uint32_t)number();
    m->cells = number();
    m->cell = room(m->cells, 8);
    for (uint64_t i = 0; i < m->cells; i++) m->cell[i] = number();
    m->bytes = number();
    if (m->bytes > ROOM) exit(1);
    m->image = room(ROOM, 1);
    for (uint64_t i = 0; i < m->bytes; i++) m->image[i] = (uint8_t)number();
    m->top = number();
    m->summed = number();
    m->data = room(ROOM, 1);
    m->control = room(CONTROL_SIZE, 1);
}

// A call begins with the first memory, an empty control stack and all registers 0 but those of the convention.
static void begin(Machine *m, uint64_t entry) {
    memcpy(m->data, m->image, ROOM);
    if (m->lowest < CONTROL + CONTROL_SIZE) memset(m->control + (m->lowest - CONTROL), 0, CONTROL + CONTROL_SIZE - m->lowest);
    memset(m->x, 0, sizeof m->x);
    memset(m->counts, 0, sizeof m->counts);
    m->lowest = CONTROL + CONTROL_SIZE;
    m->x[1] = EXIT;
    m->x[2] = CONTROL + CONTROL_SIZE;
    m->x[27] = m->top;
    m->pc = entry;
    m->left = FUEL;
    m->enters = 0;
    m->sum = 0;
    uint64_t count = number();
    if (count > 8) exit(1);
    for (uint64_t i = 0; i < count; i++) m->x[10 + i] = number();
}

int main(void) {
    static const char *const ends[] = {"value", "stack", "fuel", "fault"};
    Machine m = {.lowest = CONTROL + CONTROL_SIZE};
    uint64_t entry;
    read_machine(&m);
    while (scanf("%" SCNx64, &entry) == 1) {
        begin(&m, entry);
        Ended ended = run(&m);
        printf("%s %" PRIu64 " %" PRIu64, ends[ended], m.x[10], m.sum);
        for (int i = 0; i < KINDS; i++) printf(" %" PRIu64, m.counts[i]);
        puts("");
    }
    return 0;
}
