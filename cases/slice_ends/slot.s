# Mapped at 0x2000. The sixteenth tick is the jal's, and the slice ends before the delay slot has run.
start:  ori  $2, $0, 8          # context: ends are handled at 0x2050
        ori  $4, $0, 2
        ori  $5, $0, 0x2050
        syscall
        nop
        nop
        nop
        nop
        nop
        nop
        nop
        nop
        nop
        nop
        nop
        jal  0x2048             # at 0x203c
        nop
        nop
        addiu $8, $8, 1         # at 0x2048
        nop
ended:  jr   $26                # at 0x2050
        lw   $26, 0x1050($0)    # $26 as it was
