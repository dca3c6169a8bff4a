# Gives its slice to environment 1 in tick 2, which gives it back.
start:  ori  $4, $0, 1
        ori  $2, $0, 0
        syscall
stay:   b    stay
        nop
