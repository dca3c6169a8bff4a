# Allocates page 7 once it is free, and stores into it.
        ori  $4, $0, 7          # 134
        ori  $2, $0, 3          # 135   alloc
        syscall                 # 136
        ori  $2, $0, 6          # 137   bind
        ori  $4, $0, 0x500
        ori  $5, $0, 7
        ori  $6, $0, 1
        syscall                 # 141
        lui  $8, 0x50
        ori  $9, $0, 0x77
        sw   $9, 8($8)          # 144
stay:   b    stay
        nop
