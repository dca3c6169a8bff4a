# Allocates the lowest free page, 4, and yields.
        addiu $4, $0, -1        # 0
        ori  $2, $0, 3          # alloc
        syscall                 # 2
        ori  $2, $0, 0          # yield
        syscall                 # 4
