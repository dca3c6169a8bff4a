# Has environment 2 do a part of what it is called for.
start:  ori  $2, $0, 8          # context: synchronous transfers enter at entered
        ori  $4, $0, 4
        la   $5, entered
        syscall
        ori  $2, $0, 0          # yield
        addiu $4, $0, -1
        syscall
stay:   b    stay
        nop
entered:
        addiu $16, $16, 1
        ori  $2, $0, 8          # context: the next one enters at back
        ori  $4, $0, 4
        la   $5, back
        syscall
        ori  $2, $0, 9          # accept: environment 2
        ori  $4, $0, 4
        syscall
        ori  $2, $0, 10         # transfer to 2
        ori  $4, $0, 2
        ori  $5, $0, 1
        syscall
hold:   b    hold
        nop
back:   addiu $16, $16, 100
        ori  $2, $0, 10         # transfer to 0
        ori  $4, $0, 0
        ori  $5, $0, 1
        syscall
        b    hold
        nop
