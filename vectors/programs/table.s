# Calls, through a table at a1, a function with a landing pad: its label stands in x7. It adds 3 to a0.
        lui     x7, 0x12345
        ld      a2, 0(a1)
        jalr    ra, 0(a2)
        ecall
        .word   0
        auipc   x0, 0x12345         # the landing pad
        addi    a0, a0, 3
        ret
