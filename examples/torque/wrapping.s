# wrapping.s: the product of torque.bin, as the generator wrote it for a core without
# multiplication. It keeps the low sixteen bits, and a product that needs more turns negative.

        .text
        .globl  mul16

# a0 * a1, the low sixteen bits with their sign: shift and add, as RV64I has no multiplication.
mul16:
        slli    a1, a1, 48
        srli    a1, a1, 48
        li      t0, 0
1:      beqz    a1, 3f
        andi    t1, a1, 1
        beqz    t1, 2f
        add     t0, t0, a0
2:      slli    a0, a0, 1
        srli    a1, a1, 1
        j       1b
3:      slli    a0, t0, 48              # an int16_t: nothing saturates, the rest is lost
        srai    a0, a0, 48
        ret
