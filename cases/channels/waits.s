# Yields, and gives its second slice to environment 0.
start:  ori  $2, $0, 0          # yield
        addiu $4, $0, -1
        syscall
give:   ori  $2, $0, 0          # yield to environment 0
        ori  $4, $0, 0
        syscall
        b    give
        nop
