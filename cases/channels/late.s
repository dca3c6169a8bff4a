# Gives its slice to environment 0, after a few steps.
start:  nop
        nop
        nop
        nop
        nop
        nop
        ori  $2, $0, 0          # yield to environment 0
        ori  $4, $0, 0
        syscall
        b    start
        nop
