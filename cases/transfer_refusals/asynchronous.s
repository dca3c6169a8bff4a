# Has asynchronous transfers enter at 0x201c, and yields.
        ori  $2, $0, 8          # context
        ori  $4, $0, 3
        ori  $5, $0, 0x201c
        syscall
        ori  $2, $0, 0          # yield
        addiu $4, $0, -1
        syscall
stay:   b    stay               # at 0x201c
        nop
