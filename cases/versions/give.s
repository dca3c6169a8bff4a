# Yields to environment 0, and keeps the answer; then it yields for ever.
        ori  $4, $0, 0
        ori  $2, $0, 0          # yield to a target
        syscall
        addu $16, $2, $0
        addiu $4, $0, -1
yield:  ori  $2, $0, 0
        syscall
        b    yield
        nop
