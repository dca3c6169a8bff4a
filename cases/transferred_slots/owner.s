# Has two slots, 0 and 2. It calls environment 1 by a synchronous transfer in one of them, and tries in the other to take and
# to drop the one that is lent. The answers are in $16 and $17, and in $18 is who holds it.
start:  ori  $5, $0, 1
again:  ori  $2, $0, 10         # transfer to 1
        ori  $4, $0, 1
        syscall
        beq  $2, $0, lent
        nop
        ori  $2, $0, 0          # yield
        addiu $4, $0, -1
        syscall
        b    again
        nop
lent:   ori  $4, $0, 2
        ori  $2, $0, 11         # take slot 2
        syscall
        or   $16, $2, $0
        ori  $2, $0, 12         # drop it
        syscall
        or   $17, $2, $0
        ori  $4, $0, 6          # query: the holder of slot 2
        ori  $5, $0, 2
        ori  $2, $0, 13
        syscall
        or   $18, $3, $0
stay:   b    stay
        nop
