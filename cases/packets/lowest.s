# Claims packets that begin with 1, then all packets, and these once more, all into one page. Withdraws the first and the second.
start:  addiu $4, $0, -1        # 0
        ori  $2, $0, 3          # alloc
        syscall
        move $6, $3             # 3
        move $5, $3
        ori  $2, $0, 6          # bind
        ori  $4, $0, 0x500
        syscall                 # 7
        la   $4, ones           # 8
        ori  $5, $0, 1
        ori  $2, $0, 14         # claim: 0
        syscall                 # 12
        addiu $4, $4, 12
        ori  $2, $0, 14         # claim: 1
        syscall                 # 15
        ori  $2, $0, 14         # claim: 2
        syscall                 # 17
        lui  $8, 0x50
        lw   $16, 0x1144($0)    # 19
        lw   $17, 0x1144($0)    # 20
        sw   $0, 0($8)          # 21
        lw   $18, 0($8)         # 22
        lw   $19, 0x800($8)     # 23
        ori  $4, $0, 0
        ori  $2, $0, 15         # unclaim
        syscall                 # 26
        lw   $20, 0x1144($0)    # 27
        ori  $4, $0, 1
        ori  $2, $0, 15         # unclaim
        syscall                 # 30
        sw   $0, 0($8)          # 31
        lw   $21, 0($8)         # 32
        lw   $22, 0x1140($0)    # 33
        lw   $23, 0x1144($0)    # 34
.data
ones:   .half 0, 1
        .word 0xff, 1
all:    .half 0, 1
        .word 0, 0
