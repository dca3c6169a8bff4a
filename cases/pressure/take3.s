# Allocates three pages, and yields for ever.
        addiu $4, $0, -1
        ori  $2, $0, 3          # alloc
        syscall
        ori  $2, $0, 3          # alloc
        syscall
        ori  $2, $0, 3          # alloc
        syscall
yield:  ori  $2, $0, 0
        syscall
        b    yield
        nop
