# Has synchronous transfers enter at entered. There it asks who holds slot 0, takes it, drops it, and asks again; and calls
# environment 0 back, by a synchronous and by an asynchronous transfer. The answers are in $16 to $21.
start:  ori  $2, $0, 8          # context: synchronous transfers enter at entered
        ori  $4, $0, 4
        la   $5, entered
        syscall
idle:   ori  $2, $0, 0          # yield
        addiu $4, $0, -1
        syscall
        b    idle
        nop
entered:
        ori  $4, $0, 6          # query: the holder of slot 0
        ori  $5, $0, 0
        ori  $2, $0, 13
        syscall
        or   $16, $3, $0
        ori  $4, $0, 0
        ori  $2, $0, 11         # take slot 0
        syscall
        or   $17, $2, $0
        ori  $2, $0, 12         # drop it
        syscall
        or   $18, $2, $0
        ori  $4, $0, 6          # query: the holder of slot 0
        ori  $2, $0, 13
        syscall
        or   $19, $3, $0
        ori  $4, $0, 0
        ori  $5, $0, 1
        ori  $2, $0, 10         # transfer to 0, synchronous
        syscall
        or   $20, $2, $0
        ori  $5, $0, 0
        ori  $2, $0, 10         # transfer to 0, asynchronous
        syscall
        or   $21, $2, $0
        b    idle
        nop
