# Accepts environment 0, and yields for ever.
start:  li   $2, 8              # context: asynchronous transfers
        li   $4, 3
        la   $5, rest
        syscall
rest:   li   $2, 9              # accept
        li   $4, 1
        syscall
        li   $2, 0              # yield
        li   $4, -1
        syscall
        b    rest
        nop
