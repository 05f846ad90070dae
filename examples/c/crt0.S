# The start of a C program: gp, tp and sp, zeroes in bss, main, exit with main's value.
# machine.ld gives the stack's top; in user mode (user.ld, where it is 0) sp comes from whoever starts the program.
    .option norelax                     # gp is not there yet
    .section .text.start, "ax"
    .globl _start
    .type _start, @function
_start:
    .cfi_startproc
    .cfi_undefined ra                   # nobody called this
    lla gp, __global_pointer$
    lla tp, __tls_base
    lla t0, _stack_top
    beqz t0, 1f
    mv sp, t0
1:
    lla t0, __bss_start
    lla t1, __bss_end
2:
    bgeu t0, t1, 3f
    sd zero, 0(t0)
    addi t0, t0, 8
    j 2b
3:
    li a0, 0                            # argc
    li a1, 0                            # argv
    call main
    call exit
    ebreak                              # exit does not return
    .cfi_endproc
    .size _start, . - _start
