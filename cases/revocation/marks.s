# Allocates the pages 2 and 3. When some are outstanding it puts other numbers into the words that say so.
        addiu $4, $0, -1        # 0
        ori  $2, $0, 3          # alloc
        syscall                 # 2     2
        ori  $2, $0, 3
        syscall                 # 4     3
        ori  $8, $0, 9
wait:   lw   $16, 0x114c($0)    # 6, 9, 12
        beq  $16, $0, wait
        nop                     # 14
        sw   $8, 0x114c($0)
        sw   $0, 0x1150($0)     # 16
        lw   $17, 0x114c($0)
        lw   $18, 0x1150($0)    # 18
stay:   lw   $19, 0x114c($0)
        lw   $20, 0x1150($0)
        b    stay
        nop
