# Calls the code of an image from C, which declares it as
#     uint32_t call_image(uint32_t entry, uint32_t a, uint32_t b);
# The entry is the base of the code plus the entry's offset. It saves what C functions keep, since the
# code keeps nothing, and comes back by the trap that ECALL makes. Its own code and data have to stand
# outside the regions of the image.
#
# Without norelax the linker could reach `saved` by x3, which holds anything when the trap comes.
        .option norelax
        .text
        .globl  call_image
        .align  2
call_image:
        la      t0, saved               # what C functions keep
        sw      ra, 0(t0)
        sw      sp, 4(t0)
        sw      gp, 8(t0)
        sw      tp, 12(t0)
        sw      s0, 16(t0)
        sw      s1, 20(t0)
        sw      s2, 24(t0)
        sw      s3, 28(t0)
        sw      s4, 32(t0)
        sw      s5, 36(t0)
        sw      s6, 40(t0)
        sw      s7, 44(t0)
        sw      s8, 48(t0)
        sw      s9, 52(t0)
        sw      s10, 56(t0)
        sw      s11, 60(t0)
        la      t0, over                # where ECALL leads, with no other interrupt
        csrw    mtvec, t0
        csrci   mstatus, 8
        fence.i                         # the code may have been written just now
        mv      t0, a0                  # the arguments, and the jump
        mv      a0, a1
        mv      a1, a2
        jr      t0
        .align  2
over:   csrr    t0, mcause              # 11 is ECALL; else the promise's conditions did not hold
        li      t1, 11
wrong:  bne     t0, t1, wrong
        la      t0, saved
        lw      ra, 0(t0)
        lw      sp, 4(t0)
        lw      gp, 8(t0)
        lw      tp, 12(t0)
        lw      s0, 16(t0)
        lw      s1, 20(t0)
        lw      s2, 24(t0)
        lw      s3, 28(t0)
        lw      s4, 32(t0)
        lw      s5, 36(t0)
        lw      s6, 40(t0)
        lw      s7, 44(t0)
        lw      s8, 48(t0)
        lw      s9, 52(t0)
        lw      s10, 56(t0)
        lw      s11, 60(t0)
        ret
        .bss
        .align  2
saved:  .skip   64
