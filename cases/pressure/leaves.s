# Allocates three pages, and exits as soon as it finds that it is asked for one.
        addiu $4, $0, -1
        ori  $2, $0, 3          # alloc
        syscall
        ori  $2, $0, 3
        syscall
        ori  $2, $0, 3
        syscall
yield:  ori  $2, $0, 0
        syscall
        lw   $8, 0x114c($0)     # the pages that are outstanding
        nop
        beq  $8, $0, yield
        nop
        ori  $2, $0, 2          # exit
        syscall
