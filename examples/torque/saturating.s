# saturating.s: the product of mended.bin. It is multiplied whole and then held to sixteen bits,
# so that a product which is too large stays the largest: its class is the table's last.

        .option arch, +m, +zbb          # MUL, and MIN and MAX
        .text
        .globl  mul16

# a0 * a1, saturated to sixteen bits with their sign. The factors come from 32-bit signals, so
# the 64 bits of MUL hold the whole product.
mul16:
        mul     a0, a0, a1
        li      t0, 32767
        min     a0, a0, t0              # an int16_t at most,
        li      t0, -32768
        max     a0, a0, t0              # and at least
        ret
