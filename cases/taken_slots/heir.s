# Takes slot 0, again and again, until it has it. Then it yields, for ever, and counts in $8.
start:  ori  $2, $0, 11         # take
        ori  $4, $0, 0
        syscall
        bne  $2, $0, start
        nop
        addiu $4, $0, -1
next:   addiu $8, $8, 1
        ori  $2, $0, 0          # yield
        syscall
        b    next
        nop
