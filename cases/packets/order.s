# Claims all packets, and empties the second buffer before the first.
start:  addiu $4, $0, -1        # 0
        ori  $2, $0, 3          # alloc
        syscall
        move $6, $3             # 3
        move $5, $3
        ori  $2, $0, 6          # bind
        ori  $4, $0, 0x500
        syscall                 # 7
        la   $4, all            # 8
        ori  $5, $0, 1
        ori  $2, $0, 14         # claim
        syscall                 # 12
        lui  $8, 0x50           # 13
        lw   $16, 0($8)         # 14
        lw   $17, 0x800($8)     # 15
        sw   $0, 0x800($8)      # 16
        lw   $18, 0x800($8)     # 17
        lw   $19, 0x1144($0)    # 18
        sw   $0, 0($8)          # 19
        lw   $20, 0($8)         # 20
        lw   $21, 0x800($8)     # 21
        lw   $22, 0x800($8)     # 22
        lw   $23, 0x1140($0)    # 23
.data
all:    .half 0, 1
        .word 0, 0
