# Yields once; allocates any page, binds it and loads, stores something else, and yields for ever.
        addiu $4, $0, -1
        ori  $2, $0, 0          # yield
        syscall
        ori  $2, $0, 3          # alloc
        syscall
        addu $16, $3, $0
        addu $5, $3, $0
        ori  $2, $0, 6          # bind
        ori  $4, $0, 0x500
        ori  $6, $0, 1
        syscall
        lui  $9, 0x50
        lw   $17, 0($9)
        ori  $10, $0, 0x555
        sw   $10, 0($9)
        addiu $4, $0, -1
loop:   ori  $2, $0, 0
        syscall
        b    loop
        nop
