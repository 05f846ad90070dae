# a0 becomes 4 + 3 + 2 + 1 + 0: a function that calls itself, with its return address on both stacks.
        li      a0, 4
        jal     ra, total
        ecall
total:  .word   0xCE104073          # push of ra
        addi    sp, sp, -16
        sd      ra, 0(sp)
        sd      a0, 8(sp)
        beqz    a0, back
        addi    a0, a0, -1
        jal     ra, total
        ld      a1, 8(sp)
        add     a0, a0, a1
back:   ld      ra, 0(sp)
        addi    sp, sp, 16
        .word   0xCDC0C073          # pop-check of ra
        ret
