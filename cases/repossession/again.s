# Allocates the pages 2 and 3, binds 2 and stores into it. Then it allocates 2 again and again.
        addiu $4, $0, -1        # 0
        ori  $2, $0, 3          # alloc
        syscall                 # 2     2
        ori  $2, $0, 3
        syscall                 # 4     3
        ori  $4, $0, 0x500
        ori  $5, $0, 2          # 6
        ori  $6, $0, 1
        ori  $2, $0, 6          # 8     bind
        syscall                 # 9
        lui  $9, 0x50
        sw   $9, 0($9)          # 11
        ori  $4, $0, 2
again:  ori  $2, $0, 3          # 13, 17, 21 .. alloc
        syscall                 # 14, 18, 22 ..
        bne  $2, $0, again
        nop
        lw   $16, 0x1180($0)    # behind an alloc in tick 22: 25
        lw   $17, 0($9)         # 26
