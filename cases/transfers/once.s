# Calls environment 1 once, by an asynchronous transfer, and yields, for ever.
start:  ori  $2, $0, 10         # transfer
        ori  $4, $0, 1
        ori  $5, $0, 0
        syscall
        addiu $4, $0, -1
next:   ori  $2, $0, 0          # yield
        syscall
        b    next
        nop
