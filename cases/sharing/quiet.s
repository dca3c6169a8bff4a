# Allocates page 6 with the read word 5, binds it and stores; yields, and stores something else; yields for ever.
        ori  $2, $0, 3          # alloc
        ori  $4, $0, 6
        ori  $5, $0, 5
        syscall
        ori  $2, $0, 6          # bind
        ori  $4, $0, 0x500
        ori  $5, $0, 6
        ori  $6, $0, 1
        syscall
        lui  $9, 0x50
        ori  $10, $0, 0x111
loop:   sw   $10, 0($9)
        addiu $10, $10, 0x111
        addiu $4, $0, -1
        ori  $2, $0, 0          # yield
        syscall
        b    loop
        nop
