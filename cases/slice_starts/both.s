# Environment 1 handles starts and ends, and yields. Environment 0 gives it the rest of a slice in the last tick of it.
start:  ori  $2, $0, 20         # self
        syscall
        beq  $3, $0, giver
        nop
        ori  $2, $0, 8          # context: starts are handled at started
        ori  $4, $0, 1
        la   $5, started
        syscall
        ori  $2, $0, 8          # context: ends are handled at ended
        ori  $4, $0, 2
        la   $5, ended
        syscall
        nop
        addiu $4, $0, -1
        ori  $26, $0, 0x1234
        ori  $2, $0, 0          # yield, to whoever is next
        syscall
stay:   b    stay               # at 0x0040004c
        nop
started:
        b    started            # at 0x00400054
        nop
ended:  lw   $8, 0x1040($0)     # at 0x0040005c
        lw   $9, 0x1044($0)
        lw   $10, 0x1050($0)
        lw   $11, 0x1054($0)
        ori  $2, $0, 0          # yield, to whoever is next
        addiu $4, $0, -1
        syscall
giver:  nop
        nop
        nop
        nop
        nop
        nop
        nop
        nop
        nop
        nop
        nop
        nop
        nop
        ori  $4, $0, 1
        ori  $2, $0, 0          # yield to 1, in the twentieth tick
        syscall
hold:   b    hold
        nop
