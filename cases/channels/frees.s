# Hears whether a page that it allocated is still its own.
start:
        ori  $2, $0, 3          # alloc: any page
        addiu $4, $0, -1
        syscall
        or   $19, $3, $0
        ori  $18, $0, 9         # slices
wait:   ori  $2, $0, 0          # yield
        addiu $4, $0, -1
        syscall
        addiu $18, $18, -1
        bne  $18, $0, wait
        nop
        ori  $2, $0, 4          # free
        or   $4, $19, $0
        syscall
        or   $17, $2, $0
tell:   la   $16, heard         # put: the byte that it heard
        sb   $17, 0($16)
        ori  $2, $0, 1
        or   $4, $16, $0
        ori  $5, $0, 1
        syscall
        ori  $2, $0, 2          # exit
        ori  $4, $0, 0
        syscall

.data
heard:  .byte 0
