# Gives each slice to environment 1 or 2, by turns. From one yield to the next are sixteen ticks.
start:  ori  $12, $0, 2
        nop
next:   xori $12, $12, 3
        or   $4, $12, $0
        nop
        nop
        nop
        nop
        nop
        nop
        nop
        nop
        nop
        nop
        ori  $2, $0, 0          # yield to it
        syscall
        b    next
        nop
