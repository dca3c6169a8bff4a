# Has synchronous transfers enter at 0x2020, and yields: seven ticks. Who calls it has it exit.
        ori  $2, $0, 8          # context: synchronous transfers enter at 0x2020
        ori  $4, $0, 4
        ori  $5, $0, 0x2020
        syscall
        ori  $2, $0, 0          # yield
        addiu $4, $0, -1
        syscall
        nop
        ori  $2, $0, 2          # exit, at 0x2020
        ori  $4, $0, 0
        syscall
