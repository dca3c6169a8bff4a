# Mapped at 0x2000. Has asynchronous transfers enter at 0x2020, and yields. There it adds 1 to $8, and exits with 9.
start:  ori  $2, $0, 8
        ori  $4, $0, 3
        ori  $5, $0, 0x2020
        syscall
        ori  $2, $0, 0          # yield
        addiu $4, $0, -1
        syscall
        nop
        addiu $8, $8, 1         # at 0x2020
        ori  $2, $0, 2
        ori  $4, $0, 9
        syscall
