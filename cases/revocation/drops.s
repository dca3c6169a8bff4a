# Allocates page 2, drops its slot and yields. Nobody holds a slot then.
        addiu $4, $0, -1        # 0
        ori  $2, $0, 3          # alloc
        syscall                 # 2
        ori  $4, $0, 0
        ori  $2, $0, 12         # 4     drop
        syscall
        addiu $4, $0, -1        # 6
        ori  $2, $0, 0          # yield
        syscall                 # 8
