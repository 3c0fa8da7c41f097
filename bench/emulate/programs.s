# Four programs, each a function of no argument that answers in a0. s11 is the start of data memory.
# Assembled by: clang --target=riscv64 -march=rv64im -mno-relax -c programs.s
.option norvc

# A loop of additions: the sum of the numbers from 1 to 99,999,744.
.globl sum
sum:
    lui a0, 24414
    addi t0, x0, 0
1:  add t0, t0, a0
    addi a0, a0, -1
    bne a0, x0, 1b
    addi a0, t0, 0
    jalr x0, 0(ra)

# A loop of loads and stores: 256 times over a megabyte, with a sum.
.globl megabyte
megabyte:
    addi a0, x0, 256
    addi t2, x0, 0
1:  addi t0, s11, 0
    lui t1, 256
    add t1, t1, s11
2:  ld t3, 0(t0)
    add t3, t3, a0
    sd t3, 0(t0)
    add t2, t2, t3
    addi t0, t0, 8
    bne t0, t1, 2b
    addi a0, a0, -1
    bne a0, x0, 1b
    addi a0, t2, 0
    jalr x0, 0(ra)

# The 33rd Fibonacci number by recursion.
.globl fibonacci
fibonacci:
    addi a0, x0, 33
2:  addi sp, sp, -32
    sd ra, 24(sp)
    sd s0, 16(sp)
    sd s1, 8(sp)
    addi s0, a0, 0
    addi t0, x0, 2
    bltu a0, t0, 1f
    addi a0, s0, -1
    jal ra, 2b
    addi s1, a0, 0
    addi a0, s0, -2
    jal ra, 2b
    add a0, a0, s1
1:  ld s1, 8(sp)
    ld s0, 16(sp)
    ld ra, 24(sp)
    addi sp, sp, 32
    jalr x0, 0(ra)

# A megabyte of bytes, each the sum of the two before it, turned end for end and hashed, 20 times.
.globl bytes
bytes:
    addi a0, x0, 20
    lui t6, 256
    add t5, t6, s11
    addi a1, x0, 0
    addi a2, x0, 31
0:  addi t0, s11, 0
    addi t1, a0, 0
    addi t2, x0, 1
1:  add t3, t1, t2
    sb t3, 0(t0)
    addi t1, t2, 0
    lbu t2, 0(t0)
    addi t0, t0, 1
    bltu t0, t5, 1b
    addi t0, s11, 0
    addi t1, t5, -1
2:  lbu t2, 0(t0)
    lbu t3, 0(t1)
    sb t3, 0(t0)
    sb t2, 0(t1)
    addi t0, t0, 1
    addi t1, t1, -1
    bltu t0, t1, 2b
    addi t0, s11, 0
3:  lbu t2, 0(t0)
    mul a1, a1, a2
    add a1, a1, t2
    addi t0, t0, 1
    bltu t0, t5, 3b
    addi a0, a0, -1
    bne a0, x0, 0b
    addi a0, a1, 0
    jalr x0, 0(ra)
