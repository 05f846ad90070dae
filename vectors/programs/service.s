# A handler in M: gives the caller 42 in a0, and goes on behind its ecall.
        csrr    t0, mepc
        addi    t0, t0, 4
        csrw    mepc, t0
        li      a0, 42
        mret
