# Claims the packets of the kind 0x88b5, and never empties a buffer.
start:  li $2, 3                # alloc
        li $4, -1
        syscall
        move $6, $3
        la $4, filter
        li $5, 1
        li $2, 14               # claim
        syscall
stay:   b stay
        nop
.data
filter: .half 12, 2
        .word 0xffff, 0x88b5
