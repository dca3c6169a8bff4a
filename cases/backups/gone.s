# Allocates page 100, loads it, and exits: its own pages, 0 and 1, and this one are free.
        ori  $4, $0, 100
        ori  $2, $0, 3          # alloc
        syscall
        ori  $2, $0, 18         # backup
        syscall
        ori  $2, $0, 2          # exit
        syscall
