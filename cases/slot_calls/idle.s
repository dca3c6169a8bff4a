# Yields, for ever.
start:  addiu $4, $0, -1        # to whoever is next
again:  ori  $2, $0, 0          # yield
        syscall
        b    again
        nop
