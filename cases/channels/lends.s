# Hands slot 1 on by a synchronous transfer, and hears in slot 2 whether it is back.
start:  ori  $2, $0, 10         # transfer to environment 1, synchronous
        ori  $4, $0, 1
        ori  $5, $0, 1
        syscall
        ori  $2, $0, 12         # drop slot 1
        ori  $4, $0, 1
        syscall
        or   $17, $2, $0
tell:   la   $16, heard         # put: the byte that it heard
        sb   $17, 0($16)
        ori  $2, $0, 1
        or   $4, $16, $0
        ori  $5, $0, 1
        syscall
        ori  $2, $0, 2          # exit
        ori  $4, $0, 0
        syscall

.data
heard:  .byte 0
