# Gives its slice to environment 0.
start:  ori  $4, $0, 0
        ori  $2, $0, 0
        syscall
stay:   b    stay
        nop
