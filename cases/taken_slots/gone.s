# Handles ends, and drops the slot in which it runs. It uses up one quantum of grace, and yields.
start:  ori  $2, $0, 8          # context: ends are handled at ended
        ori  $4, $0, 2
        la   $5, ended
        syscall
        ori  $2, $0, 12         # drop
        ori  $4, $0, 0
        syscall
stay:   b    stay
        nop
ended:  ori  $8, $0, 6
count:  addiu $8, $8, -1
        bne  $8, $0, count
        nop
        ori  $2, $0, 0          # yield
        addiu $4, $0, -1
        syscall
