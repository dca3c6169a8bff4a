# Counts, for ever, and never gives way.
start:  b    start
        addiu $16, $16, 1
