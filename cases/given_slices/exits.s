# Exits with 5.
start:  ori  $4, $0, 5
        ori  $2, $0, 2
        syscall
