# Has synchronous transfers enter at entered, where it has ends handled and never yields.
start:  ori  $2, $0, 8          # context: synchronous transfers enter at entered
        ori  $4, $0, 4
        la   $5, entered
        syscall
idle:   ori  $2, $0, 0          # yield
        addiu $4, $0, -1
        syscall
        b    idle
        nop
entered:
        ori  $2, $0, 8          # context: ends are handled at stay
        ori  $4, $0, 2
        la   $5, stay
        syscall
stay:   b    stay
        nop
