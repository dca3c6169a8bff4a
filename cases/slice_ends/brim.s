# The yield of the handler of ends is the last tick of the second quantum of grace, the 32nd.
start:  ori  $2, $0, 8          # context: ends are handled at ended
        ori  $4, $0, 2
        la   $5, ended
        syscall
stay:   b    stay
        nop
ended:  ori  $8, $0, 9          # one tick, and 27
count:  addiu $8, $8, -1
        bne  $8, $0, count
        nop
        nop
        ori  $2, $0, 0          # yield
        addiu $4, $0, -1
        syscall
again:  b    again
        nop
