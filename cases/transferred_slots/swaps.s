# Calls environment 1 by a synchronous transfer, again and again until it is granted, and exits when it is called back.
start:  ori  $2, $0, 8          # context: synchronous transfers enter at back
        ori  $4, $0, 4
        la   $5, back
        syscall
        ori  $5, $0, 1
again:  ori  $2, $0, 10         # transfer to 1
        ori  $4, $0, 1
        syscall
        beq  $2, $0, hold
        nop
        ori  $2, $0, 0          # yield
        addiu $4, $0, -1
        syscall
        b    again
        nop
hold:   b    hold
        nop
back:   ori  $8, $0, 4          # for twelve ticks
wait:   addiu $8, $8, -1
        bne  $8, $0, wait
        nop
        ori  $4, $0, 0
        ori  $2, $0, 2          # exit
        syscall
