# Allocates the pages 4 and 5, which were the other's, and loads 5 as a backup.
        ori  $4, $0, 4          # 10
        ori  $2, $0, 3          # alloc
        syscall                 # 12
        ori  $4, $0, 5
        ori  $2, $0, 3          # 14
        syscall                 # 15
        ori  $2, $0, 18         # 16    backup
        syscall                 # 17
        or   $16, $2, $0
stay:   b    stay
        nop
