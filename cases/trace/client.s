# Mapped at 0x2000. Calls environment 1 by an asynchronous transfer, and exits with 3.
start:  ori  $8, $0, 0x29
        ori  $2, $0, 10
        ori  $4, $0, 1
        ori  $5, $0, 0
        syscall
        ori  $2, $0, 2          # at 0x2014
        ori  $4, $0, 3
        syscall
