start:  li   $4, 4              # synchronous transfers
        la   $5, entry
        li   $2, 8              # context
        syscall
        li   $4, 2              # from environment 1
        li   $2, 9              # accept
        syscall
        li   $2, 0              # yield
        li   $4, -1
        syscall
entry:  addu $16, $16, $16
stay:   b    stay
        nop
