# Has asynchronous transfers enter at entered. Behind an entry it yields, and at its next turn accepts again.
start:  ori  $2, $0, 8          # context: asynchronous transfers enter at entered
        ori  $4, $0, 3
        la   $5, entered
        syscall
idle:   ori  $2, $0, 0          # yield
        addiu $4, $0, -1
        syscall
        b    idle
        nop
entered:
        ori  $2, $0, 0          # yield
        addiu $4, $0, -1
        syscall
        ori  $2, $0, 9          # accept
        ori  $4, $0, 5
        syscall
        b    idle
        nop
