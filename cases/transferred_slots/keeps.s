# Has synchronous transfers enter at entered, and keeps the slot, in which it counts in $8.
start:  ori  $2, $0, 8          # context: synchronous transfers enter at entered
        ori  $4, $0, 4
        la   $5, entered
        syscall
idle:   ori  $2, $0, 0          # yield
        addiu $4, $0, -1
        syscall
        b    idle
        nop
entered:
        addiu $8, $8, 1
        b    entered
        nop
