# Copies bytes from a0 to a1 up to and with the first that is 0.
next:   lbu     a2, 0(a0)
        sb      a2, 0(a1)
        addi    a0, a0, 1
        addi    a1, a1, 1
        bnez    a2, next
        ecall
