# Hears whether a claim of its own is refused.
start:
        ori  $2, $0, 3          # alloc: any page
        addiu $4, $0, -1
        syscall
        or   $19, $3, $0
        ori  $2, $0, 14         # claim: all packets
        la   $4, filter
        ori  $5, $0, 1
        or   $6, $19, $0
        syscall
        or   $17, $2, $0
tell:   la   $16, heard         # put: the byte that it heard
        sb   $17, 0($16)
        ori  $2, $0, 1
        or   $4, $16, $0
        ori  $5, $0, 1
        syscall
        ori  $2, $0, 2          # exit
        ori  $4, $0, 0
        syscall

.data
heard:  .byte 0

.align 2
filter: .half 0, 1              # of each packet that has a byte
        .word 0, 0
