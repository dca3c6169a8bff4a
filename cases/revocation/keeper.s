# Allocates the pages 4 to 6, and keeps them.
        addiu $4, $0, -1        # 2
        ori  $2, $0, 3          # alloc
        syscall                 # 4     4
        ori  $2, $0, 3
        syscall                 # 6     5
        ori  $2, $0, 3
        syscall                 # 8     6
        ori  $2, $0, 0          # yield
        syscall                 # 10
stay:   b    stay
        nop
