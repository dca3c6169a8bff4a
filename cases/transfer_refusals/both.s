# Has transfers of both kinds enter at 0x2028, and yields.
        ori  $2, $0, 8          # context
        ori  $4, $0, 3
        ori  $5, $0, 0x2028
        syscall
        ori  $2, $0, 8
        ori  $4, $0, 4
        syscall
        ori  $2, $0, 0          # yield
        addiu $4, $0, -1
        syscall
stay:   b    stay               # at 0x2028
        nop
