start:  li   $4, 1              # starts of its slices
        la   $5, begins
        li   $2, 8              # context
        syscall
stay:   b    stay
        nop
begins: jr   $26
        nop
