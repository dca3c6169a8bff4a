# Counts for ever.
start:  addiu $16, $16, 1
        b    start
        nop
