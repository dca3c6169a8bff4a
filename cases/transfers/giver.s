# Yields to 1, and then calls it by an asynchronous transfer.
start:  ori  $4, $0, 1
        ori  $2, $0, 0          # yield to 1
        syscall
        ori  $5, $0, 0
        ori  $2, $0, 10         # transfer to 1
        syscall
stay:   b    stay
        nop
