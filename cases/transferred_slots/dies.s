# Calls environment 1 by a synchronous transfer, again and again until it is granted, and then exits.
start:  ori  $5, $0, 1
again:  ori  $2, $0, 10         # transfer to 1
        ori  $4, $0, 1
        syscall
        beq  $2, $0, leave
        nop
        ori  $2, $0, 0          # yield
        addiu $4, $0, -1
        syscall
        b    again
        nop
leave:  ori  $4, $0, 0
        ori  $2, $0, 2          # exit
        syscall
