# a2 becomes the sum of the a1 doublewords from a0 on.
        li      a2, 0
next:   beqz    a1, done
        ld      a3, 0(a0)
        add     a2, a2, a3
        addi    a0, a0, 8
        addi    a1, a1, -1
        j       next
done:   ecall
