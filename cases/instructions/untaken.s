# A branch that isn't taken in the delay slot of another: the program goes on at the first target.
start:  b    one
        bne  $0, $0, two
        addiu $10, $10, 1       # never
one:    addiu $8, $8, 1
        addiu $9, $9, 1
two:    addiu $10, $10, 1
stop:   b    stop
        nop
