# Claims all packets, and has later the lengths in both buffers, how many packets came, and how many were lost.
start:  addiu $4, $0, -1        # 0
        ori  $2, $0, 3          # alloc
        syscall
        move $5, $3             # 3
        ori  $2, $0, 6          # bind
        ori  $4, $0, 0x500
        syscall                 # 6
        move $6, $3             # 7
        move $6, $5
        ori  $2, $0, 14         # claim
        la   $4, all            # 10
        ori  $5, $0, 1
        syscall                 # 13
rest:   addiu $9, $9, 1         # 14
        bne  $9, $8, rest
        ori  $8, $0, 10
        lui  $8, 0x50
        lw   $16, 0($8)
        lw   $17, 0x800($8)
        lw   $18, 0x1140($0)
        lw   $19, 0x1144($0)
end:    b    end
        nop
.data
all:    .half 0, 1
        .word 0, 0
