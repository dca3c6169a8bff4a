# Claims the packets whose first byte is 0x42, of which none comes, and yields for ever.
start:  li   $2, 3              # alloc: the lowest free page
        li   $4, -1
        syscall
        move $6, $3
        li   $2, 14             # claim
        la   $4, filter
        li   $5, 1
        syscall
rest:   li   $2, 0
        li   $4, -1
        syscall
        b    rest
        nop
.data
filter: .half 0, 1
        .word 0xff, 0x42
