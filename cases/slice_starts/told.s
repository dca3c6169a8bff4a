# Handles starts, and marks $26. The sixteenth tick is the branch, whose delay slot is then due.
start:  ori  $2, $0, 8          # context: starts are handled at started
        ori  $4, $0, 1
        la   $5, started
        syscall
        ori  $26, $0, 0x1234
        nop
        nop
        nop
        nop
        nop
        nop
        nop
        nop
        nop
loop:   b    loop               # at 0x0040003c
        addiu $8, $8, 1
started:
        jr   $26                # at 0x00400044
        lw   $26, 0x1040($0)
