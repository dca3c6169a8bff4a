# Allocates three pages, and gives back the one that it got last as soon as it finds that it is asked for one.
        addiu $4, $0, -1
        ori  $2, $0, 3          # alloc
        syscall
        ori  $2, $0, 3
        syscall
        ori  $2, $0, 3
        syscall
        addu $16, $3, $0
yield:  ori  $2, $0, 0
        addiu $4, $0, -1
        syscall
        lw   $8, 0x114c($0)     # the pages that are outstanding
        nop
        beq  $8, $0, yield
        sw   $0, 0x114c($0)
        addu $4, $16, $0
        ori  $2, $0, 4          # free
        syscall
        b    yield
        addiu $16, $16, -1
