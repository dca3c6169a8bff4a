# A solution of exercise 10. The free withdraws the claim, so that the next packets are dropped, and the victim's page holds zeros.
start:  li   $2, 3              # alloc
        li   $4, -1
        syscall
        move $16, $3
        li   $2, 14             # claim
        la   $4, filter
        li   $5, 1
        move $6, $16
        syscall
        move $17, $3
wait:   li   $2, 0              # yield
        li   $4, -1
        syscall
        lw   $8, 0x1140($0)
        nop
        beq  $8, $0, wait
        nop
        li   $2, 4              # free
        move $4, $16
        syscall
        li   $2, 15             # unclaim
        move $4, $17
        syscall
        move $20, $2            # the answers, to be looked at
        li   $2, 14             # claim
        la   $4, filter
        li   $5, 1
        move $6, $16
        syscall
        move $21, $2
rest:   li   $2, 0
        li   $4, -1
        syscall
        b    rest
        nop
.data
filter: .half 0, 1
        .word 0xff, 0x41
