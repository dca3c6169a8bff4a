# Has synchronous transfers enter at entered, from both others. In the midst of the second call it stores to no page.
start:  ori  $2, $0, 8          # context: synchronous transfers enter at entered
        ori  $4, $0, 4
        la   $5, entered
        syscall
idle:   ori  $2, $0, 0          # yield
        addiu $4, $0, -1
        syscall
        b    idle
        nop
entered:
        lw   $9, 0x1800($0)     # how often it was called before
        bne  $9, $0, fault
        addiu $9, $9, 1
        sw   $9, 0x1800($0)
        ori  $2, $0, 9          # accept: both others
        ori  $4, $0, 5
        syscall
        b    idle
        nop
fault:  sw   $9, 0($0)
