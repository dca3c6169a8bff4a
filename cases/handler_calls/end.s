.data
kind:   .half 12, 2
        .word 0xffff, 0x0801
        .word 0
good:   .word 0x24080001, 0x0000000d    # addiu $8,$0,1 and break, and zeros behind, which are nops
        .space 0x1e8
bad:    .word 0, 0x03e00008             # nop and jr $31, and zeros behind
        .space 0xdf4
last:   .word 0x03e00008                # jr $31, at the end of the page
