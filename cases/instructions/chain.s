# A branch in the delay slot of another: one instruction runs at the first target, and then the second is taken.
start:  b    one
        b    two
one:    addiu $8, $8, 1
        addiu $9, $9, 1         # never
two:    addiu $10, $10, 1
stop:   b    stop
        nop
