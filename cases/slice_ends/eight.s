# The handler of ends uses up eight quanta of grace, and yields in the ninth.
start:  ori  $2, $0, 8          # context: ends are handled at ended
        ori  $4, $0, 2
        la   $5, ended
        syscall
stay:   b    stay
        nop
ended:  ori  $8, $0, 43
count:  addiu $8, $8, -1
        bne  $8, $0, count
        nop
        ori  $2, $0, 0          # yield
        addiu $4, $0, -1
        syscall
again:  b    again
        nop
