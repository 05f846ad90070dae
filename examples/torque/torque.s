# torque.s: a speed controller for a motor drive, RV64I, as a code generator writes it.
#
# The controller runs once a millisecond. It compares the speed with the set point, computes
# the torque that it wants (the demand), limits it to what the drive may give, and sends it.
# A model of the motor stands in for the real one, so that the program can run at a desk.
# Each step leaves a sample in memory: what a simulator draws.
#
# THE BUG is in book_load, which keeps the load spectrum: how long the drive has run in each of
# eight classes of power. Power is speed times torque, and the generator multiplies in sixteen
# bits without saturation. Its range check assumed the limited torque: 187 * 120 = 22,440 fits.
# But book_load was placed before limit_torque. A large demand makes the product wrap and turn
# negative, the class is negative too, and the counter that is raised lies below the table:
# there, on the stack, is the return address that book_load itself has saved. It grows by 4,
# one instruction: the return skips the call of limit_torque.
#
# The product itself, mul16, is linked behind this file: wrapping.s, as the generator wrote it,
# gives torque.bin, and saturating.s, which mends it, gives mended.bin. Everything up to mul16
# is the same in both, byte for byte.
#
# The same image runs with the shadow stack on or off. The words of sspush_ra and sspopchk_ra
# are Zimop words: with the shadow stack off they do nothing. A function that saves ra on the
# stack pushes it on the shadow stack too, and checks it before its return. A function that
# calls nothing keeps ra in its register and needs neither.
#
# The host hands in: pc = CODE, user mode, Sv39 with the pages of torque.map, and ssp.

        .macro  sspush_ra               # push ra on the shadow stack
        .word   0xCE104073
        .endm
        .macro  sspopchk_ra             # pop the shadow stack: trap unless it equals ra
        .word   0xCDC0C073
        .endm

# Where things lie (virtual addresses; torque.map says where that is in memory).
        .equ    CODE,       0x10000
        .equ    DATA,       0x20000     # the signals, gp points here
        .equ    STACK_TOP,  0x31000
        .equ    SHADOW_TOP, 0x41000     # the ssp that the host hands in
        .equ    LOG,        0x50000     # the samples

# The drive.
        .equ    STEPS,      600         # control steps in all
        .equ    STEP_US,    1000        # a control step, in microseconds
        .equ    PERIODS,    4           # PWM periods in a control step (4 kHz)
        .equ    JUMP,       100         # in this step the set point jumps
        .equ    HOLD,       2500        # set point before, in rpm
        .equ    GOAL,       3000        # set point after, in rpm
        .equ    FILTER_SHIFT, 4         # the speed filter: 2^4 steps
        .equ    TORQUE_NM,  16          # torque is counted in 1/16 Nm
        .equ    LIMIT,      60 * TORQUE_NM
        .equ    BALANCE,    234         # torque that holds 2500 rpm against the load

# The load spectrum.
        .equ    CLASSES,    8
        .equ    SPEED_SHIFT,  4         # the product takes speed in 16 rpm
        .equ    TORQUE_SHIFT, 3         # and torque in 1/2 Nm,
        .equ    CLASS_SHIFT, 12         # and a class is 4,096 of that product, 3.4 kW
        .equ    COUNTER,    4           # bytes of a counter
        .equ    SAVED_RA,   8           # book_load's frame keeps ra here

# Signals: one word each, at this distance from gp. Blocks pass values through them.
        .equ    TIME,       0           # the step's number
        .equ    REFERENCE,  4           # set point, rpm
        .equ    SPEED,      8           # measured and filtered speed, rpm
        .equ    SUM,        12          # the regulator's integral, 1/128 of 1/16 Nm
        .equ    DEMAND,     16          # what the regulator wants, 1/16 Nm
        .equ    TORQUE,     20          # the same, then limited in place, 1/16 Nm
        .equ    COMMAND,    24          # what was sent to the drive, 1/16 Nm
        .equ    FILTER,     28          # the filtered speed, 1/4096 rpm
        .equ    ROTOR,      32          # the motor model's own speed, 1/4096 rpm
        .equ    NEXT,       40          # where the next sample goes (8 bytes)

# A sample: four words.
        .equ    SAMPLE,     16          # set point, speed, demand, command

        .text
        .globl  _start

# The start: the stack, the signals of a drive that holds 2500 rpm, the run, the end.
_start:
        lui     sp, STACK_TOP >> 12
        lui     gp, DATA >> 12
        sw      zero, TIME(gp)
        li      t0, HOLD << 12
        sw      t0, ROTOR(gp)
        sw      t0, FILTER(gp)
        li      t0, BALANCE << 7
        sw      t0, SUM(gp)
        lui     t0, LOG >> 12
        sd      t0, NEXT(gp)
        jal     ra, run_drive
finish: ecall

# The whole run. The load spectrum is a local table, at the low end of this frame:
# what lies just below it is the frame of the function called from here.
run_drive:
        addi    sp, sp, -48
        sd      ra, 40(sp)
        sspush_ra
        sd      s0, 32(sp)
        sd      zero, 0(sp)             # eight counters, two at a time
        sd      zero, 8(sp)
        sd      zero, 16(sp)
        sd      zero, 24(sp)
        li      s0, STEPS
1:      mv      a0, sp                  # the table
        jal     ra, drive_step
        addi    s0, s0, -1
        bnez    s0, 1b
        ld      s0, 32(sp)
        ld      ra, 40(sp)
        sspopchk_ra
        addi    sp, sp, 48
        ret

# One control step: the blocks in the order that the generator chose. a0: the load spectrum.
drive_step:
        addi    sp, sp, -16
        sd      ra, 8(sp)
        sspush_ra
        sd      a0, 0(sp)
        jal     ra, set_reference
        jal     ra, measure_speed
        jal     ra, regulate
        ld      a0, 0(sp)
        jal     ra, book_load
drive_step.limit:                       # book_load returns here; 4 more, and this call is skipped
        jal     ra, limit_torque
        jal     ra, send_torque
        jal     ra, take_sample
        jal     ra, turn_motor
        ld      ra, 8(sp)
        sspopchk_ra
        addi    sp, sp, 16
        ret

# The set point: HOLD, and from step JUMP on GOAL.
set_reference:
        lw      t0, TIME(gp)
        li      t1, JUMP
        li      t2, HOLD
        blt     t0, t1, 1f
        li      t2, GOAL
1:      sw      t2, REFERENCE(gp)
        addi    t0, t0, 1
        sw      t0, TIME(gp)
        ret

# The measured speed goes through a filter of first order, as such signals do: 16 ms.
# That is good for the regulator, and it also keeps a drawn curve smooth.
measure_speed:
        lw      t0, ROTOR(gp)
        lw      t1, FILTER(gp)
        sub     t0, t0, t1
        srai    t0, t0, FILTER_SHIFT
        add     t1, t1, t0
        sw      t1, FILTER(gp)
        srai    t1, t1, 12
        sw      t1, SPEED(gp)
        ret

# The regulator: a proportional part of 1/4 Nm for each rpm, and the integral, which stands
# still while the demand is over the limit. This drive can't brake, so a demand is never
# negative; "so power is never negative, and a class needs no check".
regulate:
        lw      t0, REFERENCE(gp)
        lw      t1, SPEED(gp)
        sub     t0, t0, t1              # the error, rpm
        lw      t1, SUM(gp)
        srai    t2, t1, 7
        slli    t3, t0, 2               # 4/16 Nm for each rpm
        add     t2, t2, t3
        bgez    t2, 1f
        li      t2, 0
1:      li      t3, LIMIT
        bgt     t2, t3, 2f
        add     t1, t1, t0
        sw      t1, SUM(gp)
2:      sw      t2, DEMAND(gp)
        sw      t2, TORQUE(gp)
        ret

# The load spectrum: add this step's PWM periods to the counter of the present class of power.
# a0: the table. The product is taken as mul16 gives it: what is missing here is a check of the class.
book_load:
        addi    sp, sp, -16
        sd      ra, SAVED_RA(sp)        # the return address that the stray store hits
        sspush_ra
        sd      a0, 0(sp)
        lw      a0, SPEED(gp)
        srai    a0, a0, SPEED_SHIFT
        lw      a1, TORQUE(gp)
        srai    a1, a1, TORQUE_SHIFT
book_load.multiply:                     # here a0 and a1 are the factors
        jal     ra, mul16
book_load.product:                      # here a0 is the product, in sixteen bits
        srai    a0, a0, CLASS_SHIFT     # the class: 0 to 7, or -8 to -1 if it wrapped
        slli    a0, a0, 2
        ld      t0, 0(sp)
        add     t0, t0, a0
        lw      t1, 0(t0)
        addi    t1, t1, PERIODS
book_load.store:                        # here t0 is the counter's address, t1 its new value
        sw      t1, 0(t0)
        ld      ra, SAVED_RA(sp)
book_load.check:
        sspopchk_ra                     # with the shadow stack on, torque.bin traps here
        addi    sp, sp, 16
book_load.return:
        ret

# The limiter: no more than LIMIT goes to the drive.
limit_torque:
        lw      t0, TORQUE(gp)
        li      t1, LIMIT
        ble     t0, t1, 1f
        sw      t1, TORQUE(gp)
1:      ret

# The drive takes what stands in TORQUE, limited or not.
send_torque:
        lw      t0, TORQUE(gp)
        sw      t0, COMMAND(gp)
        ret

# The sample of this step: set point, speed, demand, command.
take_sample:
        ld      t0, NEXT(gp)
        lw      t1, REFERENCE(gp)
        sw      t1, 0(t0)
        lw      t1, SPEED(gp)
        sw      t1, 4(t0)
        lw      t1, DEMAND(gp)
        sw      t1, 8(t0)
        lw      t1, COMMAND(gp)
        sw      t1, 12(t0)
        addi    t0, t0, SAMPLE
        sd      t0, NEXT(gp)
        ret

# The motor model, first order: the load takes 3/32 of 1/16 Nm for each rpm, and what is left
# of the torque speeds the rotor up by 8/4096 rpm a step for each 1/16 Nm (about 0.31 kg m2).
turn_motor:
        lw      t0, COMMAND(gp)
        lw      t1, ROTOR(gp)
        srai    t2, t1, 12 + 4
        srai    t3, t1, 12 + 5
        add     t2, t2, t3              # the load's torque
        sub     t0, t0, t2
        slli    t0, t0, 3
        add     t1, t1, t0
        sw      t1, ROTOR(gp)
        ret
