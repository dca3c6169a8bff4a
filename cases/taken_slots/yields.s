# Yields, for ever.
start:  addiu $4, $0, -1
next:   ori  $2, $0, 0
        syscall
        b    next
        nop
