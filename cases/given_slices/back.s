# One program for two environments, each of which accepts the other's yields, counts in $8 and yields to the other.
start:  ori  $2, $0, 20         # self
        syscall
        xori $9, $3, 1
again:  addiu $8, $8, 1
        or   $4, $9, $0
        ori  $2, $0, 0          # yield to the other
        syscall
        b    again
        nop
