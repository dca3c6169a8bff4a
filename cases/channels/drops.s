# Drops the slot with which it is entered.
start:  ori  $2, $0, 8          # context: synchronous transfers enter at entered
        ori  $4, $0, 4
        la   $5, entered
        syscall
idle:
        ori  $2, $0, 0          # yield
        addiu $4, $0, -1
        syscall
        b    idle
        nop

entered:
        ori  $2, $0, 12         # drop slot 1
        ori  $4, $0, 1
        syscall
        b    idle
        nop
