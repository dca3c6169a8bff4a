# Claims all packets, and leaves marks behind the places of a packet of one byte and of one of 1,514.
start:  addiu $4, $0, -1        # 0
        ori  $2, $0, 3          # alloc
        syscall
        move $6, $3             # 3
        move $5, $3
        ori  $2, $0, 6          # bind, to store to it too
        ori  $4, $0, 0x500
        syscall                 # 7
        lui  $8, 0x50
        addiu $9, $0, -1
        sw   $9, 4($8)          # 10
        sw   $9, 0xdec($8)      # 11    bytes 0xdee to 0xdef are behind the longest packet
        la   $4, all            # 12
        ori  $5, $0, 1
        ori  $2, $0, 14         # claim
        syscall                 # 16
stay:   b    stay
        nop
.data
all:    .half 0, 1
        .word 0, 0
