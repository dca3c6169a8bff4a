# Handles ends, and uses up a quantum of grace each time. Has synchronous transfers enter at entered.
start:  ori  $2, $0, 8          # context: ends are handled at ended
        ori  $4, $0, 2
        la   $5, ended
        syscall
        ori  $2, $0, 8          # context: synchronous transfers enter at stay
        ori  $4, $0, 4
        la   $5, stay
        syscall
stay:   b    stay
        nop
ended:  ori  $8, $0, 6          # nineteen ticks
count:  addiu $8, $8, -1
        bne  $8, $0, count
        nop
        ori  $2, $0, 0          # yield, to whoever is next
        addiu $4, $0, -1
        syscall
        b    stay
        nop
