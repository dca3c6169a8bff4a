# Has transfers of both kinds enter at 0x2000, and then nowhere any more. It yields.
        ori  $2, $0, 8          # context
        ori  $4, $0, 3
        ori  $5, $0, 0x2000
        syscall
        ori  $2, $0, 8
        ori  $5, $0, 0
        syscall
        ori  $2, $0, 8
        ori  $4, $0, 4
        ori  $5, $0, 0x2000
        syscall
        ori  $2, $0, 8
        ori  $5, $0, 0
        syscall
        ori  $2, $0, 0          # yield
        addiu $4, $0, -1
        syscall
stay:   b    stay
        nop
