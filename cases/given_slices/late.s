# Environment 1 handles ends, and overruns by one quantum. Environment 0 gives it the rest of a slice in its last tick.
start:  ori  $2, $0, 20         # self
        syscall
        beq  $3, $0, giver
        nop
        ori  $2, $0, 8          # context: ends are handled at ended
        ori  $4, $0, 2
        la   $5, ended
        syscall
        ori  $2, $0, 0          # yield, to whoever is next
        addiu $4, $0, -1
        syscall
stay:   b    stay
        nop
ended:  ori  $8, $0, 6          # nineteen ticks
count:  addiu $8, $8, -1
        bne  $8, $0, count
        nop
        ori  $2, $0, 0          # yield, to whoever is next
        addiu $4, $0, -1
        syscall
        b    stay
        nop
giver:  nop
        nop
        nop
        nop
        nop
        nop
        nop
        nop
        nop
        ori  $4, $0, 1
        ori  $2, $0, 0          # yield to 1, in the sixteenth tick
        syscall
hold:   b    hold
        nop
