# Has transfers of both kinds enter at entered, where it accepts environment 1 again.
start:  ori  $2, $0, 8          # context: asynchronous transfers
        ori  $4, $0, 3
        la   $5, entered
        syscall
        ori  $2, $0, 8          # context: synchronous transfers
        ori  $4, $0, 4
        syscall
        ori  $2, $0, 0          # yield
        addiu $4, $0, -1
        syscall
stay:   b    stay
        nop
entered:
        ori  $2, $0, 9          # accept
        ori  $4, $0, 2
        syscall
        b    stay
        nop
