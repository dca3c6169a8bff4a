# Counts in $8, for ever.
start:  addiu $8, $8, 1
        b    start
        nop
