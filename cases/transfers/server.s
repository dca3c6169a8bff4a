# Has synchronous transfers enter at 0x2024, and yields: seven ticks. Who calls it is called back.
        ori  $2, $0, 8          # context: synchronous transfers enter at 0x2024
        ori  $4, $0, 4
        ori  $5, $0, 0x2024
        syscall
        ori  $2, $0, 0          # yield
        addiu $4, $0, -1
        syscall
stay:   b    stay               # at 0x201c
        nop
        lw   $8, 0x1104($0)     # at 0x2024
        lw   $9, 0x1108($0)
        lw   $10, 0x110c($0)
        ori  $2, $0, 10         # transfer
        ori  $4, $0, 0
        ori  $5, $0, 1          # synchronous
        syscall
again:  b    again              # at 0x2040
        nop
