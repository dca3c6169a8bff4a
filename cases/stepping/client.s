start:  li   $16, 5
        li   $4, 0              # to environment 0
        li   $5, 1              # synchronous
        li   $2, 10             # transfer
        syscall
stay:   b    stay
        nop
