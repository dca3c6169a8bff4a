# Squares what is in $16 for environment 0. It answers first, and accepts again at its next turn.
start:  ori  $2, $0, 8          # context: synchronous transfers enter at entered
        ori  $4, $0, 4
        la   $5, entered
        syscall
idle:   ori  $2, $0, 9          # accept: environment 0
        ori  $4, $0, 1
        syscall
        ori  $2, $0, 0          # yield
        addiu $4, $0, -1
        syscall
        b    idle
        nop
entered:
        multu $16, $16
        mflo $16
        ori  $2, $0, 10         # transfer to 0
        ori  $4, $0, 0
        ori  $5, $0, 1
        syscall
        b    idle
        nop
