# Has synchronous transfers enter at entered. It keeps its caller waiting for thirty ticks, and calls it back, if it can: the
# answer is in $16.
start:  ori  $2, $0, 8          # context: synchronous transfers enter at entered
        ori  $4, $0, 4
        la   $5, entered
        syscall
idle:   ori  $2, $0, 0          # yield
        addiu $4, $0, -1
        syscall
        b    idle
        nop
entered:
        ori  $9, $0, 10
wait:   addiu $9, $9, -1
        bne  $9, $0, wait
        nop
        lw   $4, 0x1108($0)     # who called
        ori  $2, $0, 10         # transfer to it
        ori  $5, $0, 1
        syscall
        or   $16, $2, $0
        b    idle
        nop
