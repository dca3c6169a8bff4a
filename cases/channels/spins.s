# Calls for nothing.
start:  b    start
        nop
