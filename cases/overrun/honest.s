# Calls nothing.
start:  b    start
        nop
