# Takes the lines 0 and 7, drops 7, and yields for ever.
        ori  $2, $0, 17         # line
        ori  $4, $0, 7
        ori  $5, $0, 1          # take
        syscall
        ori  $2, $0, 17
        ori  $4, $0, 0
        syscall
        ori  $2, $0, 17
        ori  $4, $0, 7
        ori  $5, $0, 0          # drop
        syscall
        addiu $4, $0, -1        # to whoever is next
again:  ori  $2, $0, 0          # yield
        syscall
        b    again
        nop
