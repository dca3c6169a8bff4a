# Allocates the pages 4 and 5, loads 5 as a backup, and exits.
        addiu $4, $0, -1        # 0
        ori  $2, $0, 3          # alloc
        syscall                 # 2     4
        ori  $2, $0, 3
        syscall                 # 4     5
        ori  $4, $0, 5
        ori  $2, $0, 18         # 6     backup
        syscall
        ori  $2, $0, 2          # 8     exit
        syscall                 # 9
