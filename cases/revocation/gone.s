# Exits.
        ori  $2, $0, 2          # 0
        syscall                 # 1
