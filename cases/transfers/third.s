# Doubles what is in $16, for whoever calls it.
start:  ori  $2, $0, 8          # context: synchronous transfers enter at entered
        ori  $4, $0, 4
        la   $5, entered
        syscall
        ori  $2, $0, 0          # yield
        addiu $4, $0, -1
        syscall
stay:   b    stay
        nop
entered:
        addu $16, $16, $16
        lw   $4, 0x1108($0)     # who called
        ori  $2, $0, 10         # transfer back
        ori  $5, $0, 1
        syscall
        b    stay
        nop
