# Calls environment 1 in its sixteenth tick, with the kind that is in its data.
start:  ori  $2, $0, 8          # context: asynchronous transfers enter at stay
        ori  $4, $0, 3
        la   $5, stay
        syscall
        ori  $26, $0, 0x1234
        la   $6, kind
        lw   $5, 0($6)
        ori  $8, $0, 0
        nop
        nop
        nop
        ori  $4, $0, 1
        ori  $2, $0, 10         # transfer to 1
        syscall
stay:   b    stay               # at 0x00400040
        nop
.data
kind:   .word 1
