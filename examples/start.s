# Starts on the machine `virt` of qemu, calls the entry at the base of the code with 6 and 7, and sends
# the result as a character to the serial line of that machine. Then it switches the machine off.
        .option norelax
        .text
        .globl  _start
_start: la      sp, top
        li      a0, 0x80300000
        li      a1, 6
        li      a2, 7
        call    call_image
        li      t0, 0x10000000
        sb      a0, 0(t0)
        li      t0, 0x100000
        li      t1, 0x5555
        sw      t1, 0(t0)
        .bss
        .skip   1024
top:
