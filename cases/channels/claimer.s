# Claims all packets.
start:
        ori  $2, $0, 3          # alloc: any page
        addiu $4, $0, -1
        syscall
        or   $19, $3, $0
        ori  $2, $0, 14         # claim: all packets
        la   $4, filter
        ori  $5, $0, 1
        or   $6, $19, $0
        syscall
idle:   b    idle
        nop

.data
.align 2
filter: .half 0, 1              # of each packet that has a byte
        .word 0, 0
