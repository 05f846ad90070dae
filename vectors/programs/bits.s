# a1 becomes the number of bits that are 1 in a0, which becomes 0.
        li      a1, 0
next:   beqz    a0, done
        addi    a2, a0, -1
        and     a0, a0, a2
        addi    a1, a1, 1
        j       next
done:   ebreak
