# A put of a byte at 0, where no page is.
start:  ori  $2, $0, 1
        ori  $3, $0, 9
        ori  $5, $0, 1
        syscall
