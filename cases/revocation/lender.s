# The same up to tick 120. In tick 130 it frees 7 too, and then it yields.
        addiu $4, $0, -1        # 0
        ori  $2, $0, 3          # 1     alloc
        syscall                 # 2     4
        ori  $2, $0, 3
        syscall                 # 4     5
        ori  $2, $0, 3
        syscall                 # 6     6
        ori  $2, $0, 3
        syscall                 # 8     7
        ori  $2, $0, 6          # 9     bind
        ori  $4, $0, 0x500
        ori  $5, $0, 5
        ori  $6, $0, 1
        syscall                 # 13
        lui  $8, 0x50
        ori  $9, $0, 0x5a
        sw   $9, 8($8)          # 16
        ori  $4, $0, 7
        ori  $2, $0, 18         # 18    backup
        syscall                 # 19
        ori  $10, $0, 32        # 20
wait:   addiu $10, $10, -1      # 21, 24 .. 114
        bne  $10, $0, wait
        nop                     # 116
        nop                     # 117
        ori  $4, $0, 4
        ori  $2, $0, 4          # 119   free
        syscall                 # 120
        ori  $10, $0, 2         # 121
more:   addiu $10, $10, -1      # 122, 125
        bne  $10, $0, more
        nop                     # 127
        ori  $4, $0, 7
        ori  $2, $0, 4          # 129   free
        syscall                 # 130
        addiu $4, $0, -1
        ori  $2, $0, 0          # 132   yield
        syscall                 # 133
stay:   b    stay
        nop
