# Allocates the pages 4 to 7, stores into 5, loads 7 as a backup, and frees 4 in tick 120. Then it reads what the kernel left in
# its context page. Each instruction is a tick.
        addiu $4, $0, -1        # 0
        ori  $2, $0, 3          # 1     alloc
        syscall                 # 2     4
        ori  $2, $0, 3
        syscall                 # 4     5
        ori  $2, $0, 3
        syscall                 # 6     6
        ori  $2, $0, 3
        syscall                 # 8     7
        ori  $2, $0, 6          # 9     bind
        ori  $4, $0, 0x500
        ori  $5, $0, 5
        ori  $6, $0, 1
        syscall                 # 13
        lui  $8, 0x50
        ori  $9, $0, 0x5a
        sw   $9, 8($8)          # 16
        ori  $4, $0, 7
        ori  $2, $0, 18         # 18    backup
        syscall                 # 19
        ori  $10, $0, 32        # 20
wait:   addiu $10, $10, -1      # 21, 24 .. 114
        bne  $10, $0, wait
        nop                     # 116
        nop                     # 117
        ori  $4, $0, 4
        ori  $2, $0, 4          # 119   free
        syscall                 # 120
        lw   $16, 0x114c($0)    # 121
        lw   $17, 0x1150($0)
        ori  $10, $0, 8         # 123
more:   addiu $10, $10, -1      # 124, 127 .. 145
        bne  $10, $0, more
        nop                     # 147
        nop                     # 148
        lw   $18, 0x117c($0)    # 149   before the deadline
        lw   $19, 0x117c($0)    # 150   behind it
        lw   $20, 0x1180($0)
        lw   $21, 0x1184($0)
        lw   $22, 0x1188($0)
        lw   $23, 0x118c($0)    # 154
stay:   b    stay
        nop
