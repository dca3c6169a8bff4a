# Runs for ever.
start:  b    start
        nop
