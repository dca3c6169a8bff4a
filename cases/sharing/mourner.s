# Binds page 6 by its read word, and another page of its own; yields, and loads from both.
        ori  $2, $0, 6          # bind
        ori  $4, $0, 0x500
        ori  $5, $0, 6
        ori  $7, $0, 5
        syscall
        addiu $4, $0, -1
        ori  $2, $0, 3          # alloc
        ori  $5, $0, 0
        ori  $7, $0, 0
        syscall
        addu $5, $3, $0
        ori  $2, $0, 6
        ori  $4, $0, 0x501
        syscall
        addiu $4, $0, -1
        ori  $2, $0, 0          # yield
        syscall
        lui  $9, 0x50
        lw   $16, 0x1000($9)
        lw   $17, 0($9)         # at 0x204c
