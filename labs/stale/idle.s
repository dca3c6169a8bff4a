# Yields, for ever.
start:  li   $2, 0
        li   $4, -1
        syscall
        b    start
        nop
