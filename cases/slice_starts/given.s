# Environment 1 handles starts, and yields. Environment 0 gives it the rest of a slice in the last tick of it.
start:  ori  $2, $0, 20         # self
        syscall
        beq  $3, $0, giver
        nop
        ori  $2, $0, 8          # context: starts are handled at started
        ori  $4, $0, 1
        la   $5, started
        syscall
        ori  $26, $0, 0x1234
        ori  $2, $0, 0          # yield, to whoever is next
        addiu $4, $0, -1
        syscall
stay:   b    stay               # at 0x00400034
        nop
started:
        lw   $8, 0x1040($0)     # at 0x0040003c
        lw   $9, 0x1044($0)
        b    stay
        nop
giver:  nop
        nop
        nop
        nop
        nop
        nop
        nop
        nop
        nop
        ori  $4, $0, 1
        ori  $2, $0, 0          # yield to 1, in the sixteenth tick
        syscall
hold:   b    hold
        nop
