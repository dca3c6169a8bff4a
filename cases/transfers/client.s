# Calls environment 1 by a synchronous transfer.
        ori  $2, $0, 10         # transfer
        ori  $4, $0, 1
        ori  $5, $0, 1          # synchronous
        syscall
stay:   b    stay               # at 0x2010
        nop
