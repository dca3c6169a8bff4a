# Binds page 6 by its read word and loads; yields, and tries to bind it again; and loads.
        ori  $2, $0, 6          # bind
        ori  $4, $0, 0x500
        ori  $5, $0, 6
        ori  $7, $0, 5
        syscall
        lui  $9, 0x50
        lw   $16, 0($9)
        addiu $4, $0, -1
        ori  $2, $0, 0          # yield
        syscall
        ori  $4, $0, 0x501
        ori  $2, $0, 6
        syscall
        addu $17, $2, $0
        addiu $4, $0, -1
        ori  $2, $0, 0          # yield
        syscall
        lw   $18, 0($9)         # at 0x2044
