# Exits.
        ori  $2, $0, 2
        syscall
