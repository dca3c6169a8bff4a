# Counts the steps of a slice that it is given, by threes.
start:  ori  $2, $0, 8          # context: ends of slices are told at over
        ori  $4, $0, 2
        la   $5, over
        syscall
        ori  $2, $0, 0          # yield
        addiu $4, $0, -1
        syscall
        or   $17, $0, $0
count:  addiu $17, $17, 1
        b    count
        nop

over:
tell:   la   $16, heard         # put: the byte that it heard
        sb   $17, 0($16)
        ori  $2, $0, 1
        or   $4, $16, $0
        ori  $5, $0, 1
        syscall
        ori  $2, $0, 2          # exit
        ori  $4, $0, 0
        syscall

.data
heard:  .byte 0
