# Sets the words that count packets to their last value, and fills its ring itself.
start:  addiu $4, $0, -1        # 0
        ori  $2, $0, 3          # alloc
        syscall
        move $6, $3             # 3
        move $5, $3
        ori  $2, $0, 6          # bind, to store to it too
        ori  $4, $0, 0x500
        syscall                 # 7
        la   $4, all            # 8
        ori  $5, $0, 1
        ori  $2, $0, 14         # claim
        syscall                 # 12
        addiu $9, $0, -1
        sw   $9, 0x1140($0)
        sw   $9, 0x1144($0)
        lui  $8, 0x50
        sb   $9, 3($8)          # 17    the highest byte of the first length
        lw   $16, 0x1140($0)    # 18
        lw   $17, 0x1144($0)
        lw   $18, 0($8)         # 20
        lw   $19, 0x1140($0)    # 21
        lw   $20, 0x1144($0)    # 22
.data
all:    .half 0, 1
        .word 0, 0
