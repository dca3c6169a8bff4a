# Handles ends and exceptions. The sixteenth tick is a break in a delay slot.
start:  ori  $2, $0, 8          # context: ends are handled at ended
        ori  $4, $0, 2
        la   $5, ended
        syscall
        ori  $2, $0, 8          # context: exceptions are handled at raised
        ori  $4, $0, 0
        la   $5, raised
        syscall
        nop
        nop
        nop
        nop
        b    stay               # at 0x00400038
        break                   # at 0x0040003c
stay:   b    stay
        nop
raised: nop                     # at 0x00400048
        b    raised
        nop
ended:  lw   $8, 0x1050($0)     # at 0x00400054
        lw   $9, 0x1054($0)
        lw   $10, 0x1058($0)
        lw   $11, 0x100c($0)
hold:   b    hold
        nop
