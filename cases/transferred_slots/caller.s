# Calls environment 1 by a synchronous transfer, again and again until it is granted, and then counts in $8.
start:  ori  $5, $0, 1
again:  ori  $2, $0, 10         # transfer to 1
        ori  $4, $0, 1
        syscall
        beq  $2, $0, count
        nop
        ori  $2, $0, 0          # yield
        addiu $4, $0, -1
        syscall
        b    again
        nop
count:  addiu $8, $8, 1
        b    count
        nop
