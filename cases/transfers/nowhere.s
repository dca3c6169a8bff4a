# Has synchronous transfers enter where no page is.
start:  ori  $2, $0, 8          # context: synchronous transfers enter at 0x00500000
        ori  $4, $0, 4
        lui  $5, 0x50
        syscall
        ori  $2, $0, 0          # yield
        addiu $4, $0, -1
        syscall
