# A function with room for one doubleword on its stack writes two, and so over its own return address.
        jal     ra, f
        ecall
f:      .word   0xCE104073          # push of ra
        addi    sp, sp, -16
        sd      ra, 8(sp)
        li      a0, 2
        mv      a1, sp
write:  sd      a2, 0(a1)
        addi    a1, a1, 8
        addi    a0, a0, -1
        bnez    a0, write
        ld      ra, 8(sp)
        addi    sp, sp, 16
        .word   0xCDC0C073          # pop-check of ra
        ret
