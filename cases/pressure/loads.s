# Allocates four pages, of which the first three are backups, and yields for ever.
        addiu $16, $0, 3
more:   addiu $4, $0, -1
        ori  $2, $0, 3          # alloc
        syscall
        addu $4, $3, $0
        ori  $2, $0, 18         # backup
        syscall
        addiu $16, $16, -1
        bne  $16, $0, more
        addiu $4, $0, -1
        ori  $2, $0, 3          # alloc
        syscall
yield:  ori  $2, $0, 0
        syscall
        b    yield
        nop
