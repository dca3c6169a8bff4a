# Hears whether environment 1 is dead.
start:  ori  $2, $0, 13         # query: whether it is dead
        ori  $4, $0, 8
        ori  $5, $0, 1
        syscall
        or   $17, $3, $0
tell:   la   $16, heard         # put: the byte that it heard
        sb   $17, 0($16)
        ori  $2, $0, 1
        or   $4, $16, $0
        ori  $5, $0, 1
        syscall
        ori  $2, $0, 2          # exit
        ori  $4, $0, 0
        syscall

.data
heard:  .byte 0
