# A scheduler: it gives each of its slices to the environment that is next in a table.
start:  la   $16, order
next:   lbu  $4, 0($16)         # whose this slice is
        bne  $4, $0, give
        addiu $16, $16, 1       # runs before the branch is over
        b    start              # the table's end: from the beginning
        nop
give:   li   $2, 0              # yield to it
        syscall
        b    next               # the next slice
        nop
.data
order:  .byte 1, 1, 2, 0
